"""The library as C for any machine, of the module that is compiled to its assembly."""
