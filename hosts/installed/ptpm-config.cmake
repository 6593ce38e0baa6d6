# find_package(ptpm): the libraries of ptpm.h, by their targets.
#     ptpm::ptpm      the shared library
#     ptpm::static    the same as a static library
#     ptpm::memory    the same in a block that the host gives, without malloc (ptpm_memory.h)
# The folder of this file may be moved together with those of the libraries and the headers.

get_filename_component(ptpm_libraries "${CMAKE_CURRENT_LIST_DIR}/../.." ABSOLUTE)
foreach(ptpm_above ".." "../..")
    get_filename_component(ptpm_headers "${ptpm_libraries}/${ptpm_above}/include" ABSOLUTE)
    if(EXISTS "${ptpm_headers}/ptpm.h")
        break()
    endif()
endforeach()
if(NOT EXISTS "${ptpm_headers}/ptpm.h")
    set(ptpm_FOUND FALSE)
    set(ptpm_NOT_FOUND_MESSAGE "there is no include/ptpm.h above ${ptpm_libraries}")
    return()
endif()

if(NOT TARGET ptpm::ptpm)
    add_library(ptpm::ptpm SHARED IMPORTED)
    set_target_properties(ptpm::ptpm PROPERTIES IMPORTED_LOCATION "${ptpm_libraries}/libptpm.so" IMPORTED_SONAME "libptpm.so.0")
    add_library(ptpm::static STATIC IMPORTED)
    set_target_properties(ptpm::static PROPERTIES IMPORTED_LOCATION "${ptpm_libraries}/libptpm.a")
    add_library(ptpm::memory STATIC IMPORTED)
    set_target_properties(ptpm::memory PROPERTIES IMPORTED_LOCATION "${ptpm_libraries}/libptpm_memory.a")
    foreach(ptpm_target ptpm::ptpm ptpm::static ptpm::memory)
        set_target_properties(${ptpm_target} PROPERTIES INTERFACE_INCLUDE_DIRECTORIES "${ptpm_headers}")
    endforeach()
endif()
unset(ptpm_above)
unset(ptpm_headers)
unset(ptpm_libraries)
unset(ptpm_target)
