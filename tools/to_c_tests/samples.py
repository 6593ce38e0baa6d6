"""Each instruction that the translator knows, as a function of three integers of 64 bits: what its tests call with drawn operands.

Operands that leave a result undefined are kept away by instructions before: no shift by the width or more, no division by zero."""
import platform
import sys
from pathlib import Path

from portable import floats, wide
from portable.calls import OVERFLOWS, SIDES
from portable.instructions import ARITHMETIC, COMPARISONS, SHIFTS, SIGNED
from portable.module import Module

WIDTHS = (1, 5, 8, 12, 16, 24, 32, 33, 40, 48, 56, 64)
WHOLE = (8, 16, 32, 64)
IN_MEMORY = (8, 16, 24, 32, 40, 48, 56, 64)
VECTOR_CONDITIONS = ('eq', 'ne', 'ugt', 'uge', 'ult', 'ule', 'slt', 'sgt')
FLAGGED = {'add': 'nuw nsw', 'sub': 'nsw', 'mul': 'nuw', 'or': 'disjoint', 'lshr': 'exact'}
LAYOUT = 'target datalayout = "e-m:e-p:64:64-i64:64-i128:128-n32:64-S128"\n'


def argument(name, bits):
    """An argument, cut to its width."""
    return [f'%{name} = {"freeze i64" if bits == 64 else "trunc i64"} %{name}0' + ('' if bits == 64 else f' to i{bits}')]


def answered(bits, name='r'):
    """The end of a function, which answers a value of this width."""
    if bits == 64:
        return [f'ret i64 %{name}']
    return [f'%wide = zext i{bits} %{name} to i64', 'ret i64 %wide']


def function(name, lines):
    return f'define i64 @{name}(i64 %a0, i64 %b0, i64 %c0) {{\n  ' + '\n  '.join(lines) + '\n}\n'


def of_two(name, bits, *lines, result=None):
    """A function of two integers of a width; the lines make %r."""
    return function(f'{name}_{bits}', [*argument('a', bits), *argument('b', bits), *lines, *answered(result or bits)])


def calculations():
    for bits in WIDTHS:
        for operation in ARITHMETIC:
            safe = f'%y = or i{bits} %b, 1' if operation[1:] in ('div', 'rem') else f'%y = or i{bits} %b, 0'
            yield of_two(operation, bits, safe, f'%r = {operation} i{bits} %a, %y')
        for operation in SHIFTS:
            count = f'%y = urem i{bits} %b, {bits}' if bits > 1 else '%y = and i1 %b, 0'
            yield of_two(operation, bits, count, f'%r = {operation} i{bits} %a, %y')
        for operation in SIGNED if bits > 1 else []:
            yield of_two(operation, bits, f'%least = icmp eq i{bits} %b, -1', f'%other = or i{bits} %b, 1',
                         f'%y1 = select i1 %least, i{bits} 3, i{bits} %other', f'%bad = icmp eq i{bits} %y1, -1',
                         f'%y = select i1 %bad, i{bits} 1, i{bits} %y1', f'%r = {operation} i{bits} %a, %y')
    yield from flagged()


def flagged():
    """The same with flags, of operands that keep what a flag says."""
    for operation, flags in FLAGGED.items():
        yield of_two(f'{operation}_flagged', 32, '%x1 = and i32 %a, 32512', '%y1 = and i32 %b, 85', '%x = or i32 %x1, 256',
                     f'%y = {"and i32 %y1, 8" if operation == "lshr" else "or i32 %y1, 1"}', f'%r = {operation} {flags} i32 %x, %y')


def comparisons():
    for bits in WIDTHS:
        for sign in 'us':
            for condition in COMPARISONS:
                named = condition if condition in ('eq', 'ne') else sign + condition
                if sign == 'u' or named != condition:
                    yield of_two(f'icmp_{named}', bits, f'%r = icmp {named} i{bits} %a, %b', result=1)
        yield of_two('select', bits, '%t = trunc i64 %c0 to i1', f'%r = select i1 %t, i{bits} %a, i{bits} %b')
        yield of_two('freeze', bits, f'%x = freeze i{bits} %a', f'%r = xor i{bits} %x, %b')


def casts():
    for less in WIDTHS:
        for more in (bits for bits in WIDTHS if bits > less):
            yield function(f'zext_{less}_{more}', [*argument('a', less), f'%r = zext i{less} %a to i{more}', *answered(more)])
            yield function(f'sext_{less}_{more}', [*argument('a', less), f'%r = sext i{less} %a to i{more}', *answered(more)])
            yield function(f'trunc_{more}_{less}', [*argument('a', more), f'%r = trunc i{more} %a to i{less}', *answered(less)])
    yield function('pointers', ['%p = inttoptr i64 %a0 to ptr', '%q = getelementptr i8, ptr %p, i64 %b0', '%r = ptrtoint ptr %q to i64',
                                *answered(64)])


def intrinsics():
    for bits in WIDTHS:
        kind = f'i{bits}'
        for operation in SIDES:
            yield of_two(operation, bits, f'%r = call {kind} @llvm.{operation}.{kind}({kind} %a, {kind} %b)')
        for operation in ('uadd', 'usub'):
            yield of_two(f'{operation}_sat', bits, f'%r = call {kind} @llvm.{operation}.sat.{kind}({kind} %a, {kind} %b)')
        for operation in OVERFLOWS if bits > 1 else []:
            yield of_two(f'{operation}_with', bits,
                         f'%s = call {{ {kind}, i1 }} @llvm.{operation}.with.overflow.{kind}({kind} %a, {kind} %b)',
                         f'%v = extractvalue {{ {kind}, i1 }} %s, 0', f'%o = extractvalue {{ {kind}, i1 }} %s, 1',
                         f'%w = sext i1 %o to {kind}', f'%r = xor {kind} %v, %w')
        for operation in ('ucmp', 'scmp'):
            yield of_two(operation, bits, f'%r = call i8 @llvm.{operation}.i8.{kind}({kind} %a, {kind} %b)', result=8)
        yield of_two('ctpop', bits, f'%x = call {kind} @llvm.ctpop.{kind}({kind} %a)', f'%r = xor {kind} %x, %b')
        for operation in ('ctlz', 'cttz'):
            yield of_two(operation, bits, f'%x = call {kind} @llvm.{operation}.{kind}({kind} %a, i1 false)', f'%r = xor {kind} %x, %b')
        yield of_two('abs', bits, f'%x = call {kind} @llvm.abs.{kind}({kind} %a, i1 false)', f'%r = xor {kind} %x, %b')
    for bits in WHOLE:
        kind = f'i{bits}'
        for operation in ('fshl', 'fshr'):
            yield function(f'{operation}_{bits}', [*argument('a', bits), *argument('b', bits), *argument('c', bits),
                                                   f'%r = call {kind} @llvm.{operation}.{kind}({kind} %a, {kind} %b, {kind} %c)',
                                                   *answered(bits)])
        if bits > 8:
            yield of_two('bswap', bits, f'%x = call {kind} @llvm.bswap.{kind}({kind} %a)', f'%r = xor {kind} %x, %b')


def memory():
    """Stores at a place that is not aligned, and what is around them."""
    for bits in IN_MEMORY:
        yield function(f'memory_{bits}', [
            '%m = alloca [24 x i8], align 8', 'store i64 %b0, ptr %m, align 8', '%m8 = getelementptr i8, ptr %m, i64 8',
            'store i64 %c0, ptr %m8, align 8', '%at = getelementptr inbounds nuw i8, ptr %m, i64 5', *argument('a', bits),
            f'store i{bits} %a, ptr %at, align 1', f'%back = load i{bits}, ptr %at, align 1', '%x = load i64, ptr %m, align 8',
            '%y = load i64, ptr %m8, align 8', f'%z = {"add i64 %back, 0" if bits == 64 else f"zext i{bits} %back to i64"}',
            '%s = mul i64 %x, 31', '%t = add i64 %s, %y', '%u = mul i64 %t, 31', '%r = add i64 %u, %z', *answered(64)])
        yield function(f'constant_in_memory_{bits}', [
            '%m = alloca [16 x i8], align 8', 'store i64 %b0, ptr %m, align 8', '%at = getelementptr i8, ptr %m, i64 3',
            'store i64 %a0, ptr %at, align 1', f'store i{bits} -2, ptr %m, align 1', '%x = load i64, ptr %m, align 8',
            '%y = load i64, ptr %at, align 1', '%s = mul i64 %x, 31', '%r = add i64 %s, %y', *answered(64)])


def vectors_of():
    """Vectors of sixteen octets, in which a table looks for one, and of four numbers."""
    made = ['%a1 = trunc i64 %a0 to i8', '%b1 = trunc i64 %b0 to i8', '%v0 = insertelement <16 x i8> <i8 1, i8 poison, '
            + ', '.join(f'i8 {number % 256}' for number in range(250, 264)) + '>, i8 %b1, i64 1', '%place = and i64 %c0, 15',
            '%v = insertelement <16 x i8> %v0, i8 %a1, i64 %place', '%one = insertelement <16 x i8> poison, i8 %a1, i64 0',
            '%all = shufflevector <16 x i8> %one, <16 x i8> poison, <16 x i32> zeroinitializer']
    for condition in VECTOR_CONDITIONS:
        yield function(f'vector_{condition}_each', [*made, '%w = insertelement <16 x i8> %v0, i8 %b1, i64 9',
                                                    f'%t = icmp {condition} <16 x i8> %v, %w', '%r = bitcast <16 x i1> %t to i16',
                                                    *answered(16)])
        yield function(f'vector_{condition}', [*made, f'%t = icmp {condition} <16 x i8> %v, %all', '%m = bitcast <16 x i1> %t to i16',
                                               '%none = icmp eq <16 x i8> %v, zeroinitializer', '%n = bitcast <16 x i1> %none to i16',
                                               '%s = mul i16 %n, 31', '%r = add i16 %m, %s', *answered(16)])
    yield function('vector_places', [
        *made, '%w = insertelement <16 x i8> splat (i8 7), i8 %b1, i32 3', '%four = shufflevector <16 x i8> %v, <16 x i8> %w, '
        '<4 x i32> <i32 1, i32 19, i32 15, i32 31>', '%r = bitcast <4 x i8> %four to i32', '%i = and i64 %b0, 15',
        '%e = extractelement <16 x i8> %v, i64 %i', '%f = zext i8 %e to i64', '%g = zext i32 %r to i64', '%h = mul i64 %g, 31',
        '%k = add i64 %h, %f', 'ret i64 %k'])


def same_vectors(elements, bits):
    """Two vectors of the arguments' bits, and what makes one number of %r, another one."""
    kind = f'<{elements} x i{bits}>'
    half = f'<{elements // 2} x i{bits}>'
    begun = [f'%p{name} = bitcast i64 %{name}0 to {half}' for name in 'abc']
    both = f'<{elements} x i32> <' + ', '.join(f'i32 {place}' for place in range(elements)) + '>'
    begun += [f'%x = shufflevector {half} %pa, {half} %pb, {both}', f'%y0 = shufflevector {half} %pc, {half} %pa, {both}']
    ended = [f'%h = bitcast {kind} %r to <2 x i64>', '%h0 = extractelement <2 x i64> %h, i64 0', '%h1 = extractelement <2 x i64> %h, i64 1',
             '%t = mul i64 %h1, 31', '%s = add i64 %t, %h0', 'ret i64 %s']
    return kind, begun, ended


def each_element():
    """What is done with each element of vectors of 128 bits, and vectors in memory."""
    for bits in (8, 16, 32):
        elements = 128 // bits
        kind, begun, ended = same_vectors(elements, bits)
        for operation in [*ARITHMETIC, *SHIFTS]:
            safe = f'%y = or {kind} %y0, splat (i{bits} 1)' if operation[1:] in ('div', 'rem') else f'%y = freeze {kind} %y0'
            if operation in SHIFTS:
                safe = f'%y = and {kind} %y0, splat (i{bits} {bits - 1})'
            yield function(f'each_{operation}_{bits}', [*begun, safe, f'%r = {operation} {kind} %x, %y', *ended])
        for condition in ('ult', 'sge'):
            yield function(f'each_select_{condition}_{bits}', [*begun, f'%c = icmp {condition} {kind} %x, %y0',
                                                               f'%r = select <{elements} x i1> %c, {kind} %y0, {kind} splat (i{bits} 9)', *ended])
            yield function(f'each_sext_{condition}_{bits}', [*begun, f'%c = icmp {condition} {kind} %x, %y0',
                                                             f'%r = sext <{elements} x i1> %c to {kind}', *ended])
        for name, called in {'umin': 'umin', 'usub_sat': 'usub.sat'}.items():
            yield function(f'each_{name}_{bits}', [*begun, f'%r = call {kind} @llvm.{called}.v{elements}i{bits}({kind} %x, {kind} %y0)', *ended])
        yield function(f'each_in_memory_{bits}', [
            *begun, '%m = alloca [24 x i8], align 8', '%at = getelementptr i8, ptr %m, i64 5', 'store i64 %b0, ptr %m, align 8',
            f'store {kind} %x, ptr %at, align 1', f'%z = load {kind}, ptr %at, align 1', '%w = load i64, ptr %m, align 8',
            f'%d = insertelement {kind} %z, i{bits} 7, i64 1', f'%r0 = xor {kind} %d, %y0', f'%q = bitcast i64 %w to <{elements // 2} x i{bits}>',
            f'%q2 = shufflevector <{elements // 2} x i{bits}> %q, <{elements // 2} x i{bits}> %q, <{elements} x i32> zeroinitializer',
            f'%r = xor {kind} %r0, %q2', *ended])
    kind, begun, ended = same_vectors(16, 8)
    yield function('each_narrower', [*begun, f'%n = bitcast {kind} %x to <8 x i16>', '%t0 = trunc <8 x i16> %n to <8 x i8>',
                                     '%w = zext <8 x i8> %t0 to <8 x i16>', '%v = add <8 x i16> %w, %n', f'%r = bitcast <8 x i16> %v to {kind}', *ended])
    if platform.machine() == 'x86_64':
        lines = [*begun, f'%r = call {kind} @llvm.x86.ssse3.pshuf.b.128({kind} %x, {kind} %y0)', *ended]
        yield function('octets_by_places', lines).replace(') {', ') "target-features"="+ssse3" {', 1)


def fractions():
    """Numbers with a fraction: of the arguments' bits, and of integers. Whichever number is none, its bits are the same."""
    of_bits = ['%x = bitcast i64 %a0 to double', '%y = bitcast i64 %b0 to double']
    of_numbers = ['%x = uitofp i64 %a0 to double', '%y = sitofp i64 %b0 to double']
    ended = ['%is = fcmp ord double %q, %q', '%bits = bitcast double %q to i64', '%r = select i1 %is, i64 %bits, i64 7', 'ret i64 %r']
    for name, begun in {'bits': of_bits, 'numbers': of_numbers}.items():
        for operation in floats.ARITHMETIC:
            yield function(f'{operation}_{name}', [*begun, f'%q = {operation} double %x, %y', *ended])
        for condition in [*floats.ORDERED, *floats.OTHERWISE]:
            yield function(f'fcmp_{condition}_{name}', [*begun, f'%t = fcmp {condition} double %x, %y', *answered(1, 't')])
    yield function('fneg', [*of_bits, '%q = fneg double %x', *ended])
    yield function('fabs_of_bits', [*of_bits, '%z = call double @llvm.fabs.f64(double %x)', '%q = call double @llvm.arithmetic.fence.f64(double %z)',
                            *ended])
    for bits in (1, 8, 33):
        yield function(f'uitofp_{bits}', [*argument('a', bits), f'%q = uitofp i{bits} %a to double', *ended])
        yield function(f'sitofp_{bits}', [*argument('a', bits), f'%q = sitofp i{bits} %a to double', *ended])
    yield function('fractions_in_memory', [
        *of_bits, '%m = alloca [16 x i8], align 8', '%at = getelementptr i8, ptr %m, i64 3', 'store double %x, ptr %at, align 1',
        '%z = load double, ptr %at, align 1', '%i = and i64 %c0, 1', '%at2 = getelementptr [2 x double], ptr @halves, i64 0, i64 %i',
        '%w = load double, ptr %at2, align 8', '%t = fcmp olt double %z, 0x3FE6666666666666', '%k = select i1 %t, double %w, double 3.000000e+00',
        '%q = fmul double %z, %k', *ended])


def wide_integers():
    """128 bits: two arguments side by side, and the third one above a copy of the first."""
    begun = ['%a1 = zext i64 %a0 to i128', '%b1 = zext i64 %b0 to i128', '%c1 = zext i64 %c0 to i128', '%b2 = shl i128 %b1, 64',
             '%x = or disjoint i128 %b2, %a1', '%c2 = shl i128 %c1, 64', '%y = or i128 %c2, %b1']
    ended = ['%m = alloca [16 x i8], align 8', 'store i128 %r, ptr %m, align 8', '%back = load i128, ptr %m, align 8',
             '%top = lshr i128 %back, 64', '%high = trunc i128 %top to i64', '%low = trunc i128 %back to i64', '%t = mul i64 %high, 31',
             '%s = add i64 %t, %low', 'ret i64 %s']
    for operation in ('add', 'sub', 'mul', 'and', 'or', 'xor'):
        yield function(f'{operation}_128', [*begun, f'%r = {operation} i128 %x, %y', *ended])
    for operation in ('shl', 'lshr'):
        yield function(f'{operation}_128', [*begun, '%count = and i128 %c1, 127', f'%r = {operation} i128 %x, %count', *ended])
    for operation, called in {'umin': 'umin', 'umax': 'umax', 'usub_sat': 'usub.sat'}.items():
        yield function(f'{operation}_128', [*begun, f'%r = call i128 @llvm.{called}.i128(i128 %x, i128 %y)', *ended])
    for condition in wide.COMPARISONS:
        yield function(f'icmp_{condition}_128', [*begun, f'%t = icmp {condition} i128 %x, %y', *answered(1, 't')])
    yield function('sext_64_128', ['%r = sext i64 %a0 to i128', *ended])
    yield function('sext_8_128', ['%e = trunc i64 %a0 to i8', '%r = sext i8 %e to i128', *ended])
    yield function('trunc_128_12', [*begun, '%z = sub i128 %x, 18446744073709551617', '%t = trunc i128 %z to i12', *answered(12, 't')])


def text():
    """All of it, without a target."""
    made = [sample for samples in (calculations, comparisons, casts, intrinsics, memory, vectors_of, each_element, fractions,
                                            wide_integers) for sample in samples()]
    return '\n'.join(made) + WHOLE_FUNCTIONS


# Blocks, phis that change places, calls, structs, constants with addresses in them, and copies that overlap.
WHOLE_FUNCTIONS = r'''
@halves = internal constant [2 x double] [double 5.000000e-01, double 0xBFF8000000000000], align 8
@words = internal constant [4 x i16] [i16 1, i16 -2, i16 772, i16 32767], align 2
@first = internal constant [6 x i8] c"ab\22\\\00z", align 1
@places = internal constant <{ ptr, i64, ptr }> <{ ptr @words, i64 -5, ptr getelementptr inbounds (i8, ptr @first, i64 2) }>, align 8

define internal fastcc { i64, i8 } @two(i64 %a, i8 %b) {
  %s = insertvalue { i64, i8 } poison, i64 %a, 0
  %t = insertvalue { i64, i8 } %s, i8 %b, 1
  ret { i64, i8 } %t
}

define i64 @structs(i64 %a0, i64 %b0, i64 %c0) {
  %b = trunc i64 %b0 to i8
  %s = tail call fastcc { i64, i8 } @two(i64 noundef %a0, i8 zeroext %b)
  %x = extractvalue { i64, i8 } %s, 0
  %y = extractvalue { i64, i8 } %s, 1
  %z = sext i8 %y to i64
  %r = xor i64 %x, %z
  ret i64 %r
}

define i64 @circle(i64 %a0, i64 %b0, i64 %c0) {
  %times = and i64 %c0, 15
  br label %loop
loop:
  %i = phi i64 [ 0, %0 ], [ %next, %loop ]
  %x = phi i64 [ %a0, %0 ], [ %y, %loop ]
  %y = phi i64 [ %b0, %0 ], [ %z, %loop ]
  %z = phi i64 [ 7, %0 ], [ %x, %loop ]
  %next = add i64 %i, 1
  %goes = icmp ult i64 %i, %times
  br i1 %goes, label %loop, label %out
out:
  %m = mul i64 %y, 3
  %n = sub i64 %x, %m
  %r = xor i64 %n, %z
  ret i64 %r
}

define i64 @switches(i64 %a0, i64 %b0, i64 %c0) {
  %k = trunc i64 %a0 to i8
  %few = and i8 %k, -122
  switch i8 %few, label %other [
    i8 0, label %none
    i8 -128, label %least
    i8 6, label %none
  ]
none:
  %n = phi i64 [ 11, %0 ], [ 11, %0 ]
  br label %end
least:
  br label %end
other:
  %o = zext i8 %few to i64
  br label %end
end:
  %r = phi i64 [ %n, %none ], [ %b0, %least ], [ %o, %other ]
  ret i64 %r
}

define i64 @constants(i64 %a0, i64 %b0, i64 %c0) {
  %i = and i64 %a0, 3
  %p = getelementptr inbounds [4 x i16], ptr @words, i64 0, i64 %i
  %v = load i16, ptr %p, align 2
  %j = and i64 %b0, 1
  %k = shl i64 %j, 4
  %q = getelementptr i8, ptr @places, i64 %k
  %at = load ptr, ptr %q, align 8
  %w = load i32, ptr %at, align 1
  %t = load i64, ptr getelementptr inbounds nuw (i8, ptr @places, i64 8), align 8
  %x = sext i16 %v to i64
  %y = zext i32 %w to i64
  %m = mul i64 %x, 31
  %n = add i64 %m, %y
  %r = xor i64 %n, %t
  ret i64 %r
}

define i64 @copies(i64 %a0, i64 %b0, i64 %c0) {
  %m = alloca [4 x i64], align 8
  %size = and i64 %c0, 15
  call void @llvm.memset.p0.i64(ptr align 8 %m, i8 90, i64 32, i1 false)
  store i64 %a0, ptr %m, align 8
  %m8 = getelementptr inbounds [4 x i64], ptr %m, i64 0, i64 1
  store i64 %b0, ptr %m8, align 8
  %m3 = getelementptr i8, ptr %m, i64 3
  call void @llvm.memmove.p0.p0.i64(ptr align 1 %m3, ptr align 8 %m, i64 %size, i1 false)
  %m24 = getelementptr i8, ptr %m, i32 24
  call void @llvm.memcpy.p0.p0.i64(ptr align 8 %m24, ptr align 8 %m8, i64 8, i1 false)
  %x = load i64, ptr %m, align 8
  %y = load i64, ptr %m8, align 8
  %back = getelementptr i8, ptr %m24, i32 -8
  %z = load i64, ptr %back, align 8
  %w = load i64, ptr %m24, align 8
  %s = mul i64 %x, 31
  %t = add i64 %s, %y
  %u = mul i64 %t, 31
  %v = xor i64 %u, %z
  %r = add i64 %v, %w
  ret i64 %r
}
'''


def main(folder):
    """Writes the samples: as LLVM has them, for the translator with a target, as C, and their names as samples.h."""
    made = text()
    (folder / 'samples.ll').write_text(made)
    (folder / 'translated.ll').write_text(LAYOUT + made)
    (folder / 'samples.c').write_text(Module(LAYOUT + made, 'portable_').text('/* The samples. */'))
    names = [line.split('@')[1].split('(')[0] for line in made.splitlines() if line.startswith('define i64')]
    (folder / 'samples.h').write_text(''.join(f'SAMPLE({name})\n' for name in names))


main(Path(sys.argv[1]))
