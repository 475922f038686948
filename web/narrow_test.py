"""narrow.py refuses a pointer in memory that it does not know, and passes those that it does."""
import subprocess
import sys
from pathlib import Path

narrow = Path(__file__).with_name('narrow.py')
REFUSED = {
    'a pointer in a global': '@x = internal global ptr null\n',
    'a struct in a constant': '@x = private constant <{ [8 x i8], { ptr, i64 } }> <{ [8 x i8] zeroinitializer, { ptr, i64 } { ptr @y, i64 1 } }>, align 16\n',
    'an array in a constant': '@x = private constant <{ [2 x ptr] }> <{ [2 x ptr] [ptr @y, ptr @y] }>, align 16\n',
    'a constant with gaps': '@x = private constant { i8, ptr } { i8 1, ptr @y }, align 16\n',
    'another address': '@x = private constant <{ ptr }> <{ ptr inttoptr (i64 ptrtoint (ptr @y to i64) to ptr) }>, align 16\n',
    'another place': '@x = private constant <{ ptr }> <{ ptr getelementptr (i8, ptr @x, i32 24) }>, align 16\n',
    'a vector of pointers': '  %a = load <2 x ptr>, ptr %p, align 16\n',
    'an array of pointers': '  %a = alloca [4 x ptr], align 8\n',
    'a struct of three': '  %a = load { i64, ptr, i64 }, ptr %p, align 8\n',
    'an exchange': '  %a = atomicrmw xchg ptr %p, ptr %q seq_cst, align 8\n',
}
PASSED = {
    'a load': '  %a = load ptr, ptr %p, align 8\n',
    'a store': '  store ptr %a, ptr %p, align 8\n',
    'a stack slot': '  %a = alloca ptr, align 8\n',
    'a pair': '  %a = load { ptr, i64 }, ptr %p, align 8\n',
    'a compare-and-swap': '  %a = cmpxchg ptr %p, ptr %q, ptr %r seq_cst seq_cst, align 8\n',
    'a number': '  %a = load i64, ptr %p, align 8\n',
    'a packed constant': '@x = private constant <{ [8 x i8], ptr, i64, ptr }> <{ [8 x i8] c"ptr @y, \\22", ptr @y, i64 1, ptr getelementptr (i8, ptr @x, i64 24) }>, align 16\n',
}
room = Path(sys.argv[1])
for wanted, cases in ((False, REFUSED), (True, PASSED)):
    for name, line in cases.items():
        file = room / 'case.ll'
        file.write_text(line)
        ran = subprocess.run([sys.executable, narrow, file], capture_output=True, text=True)
        assert (ran.returncode == 0) == wanted, f'{name}: {ran.stdout}{ran.stderr}'
attributes = 'attributes #2 = { alwaysinline nounwind "probe-stack"="inline-asm" "target-cpu"="x86-64-v2" }\n'
file.write_text(attributes)
said = subprocess.run([sys.executable, narrow, file], capture_output=True, text=True).stdout
assert said == 'attributes #2 = { nounwind }\n', said
# Four zeroes stand behind each pointer of a constant, and nothing else changes.
constant = ('@x = private constant <{ [8 x i8], ptr, [4 x i8], i64, ptr, [4 x i8] }> <{ [8 x i8] c"ptr @y, \\22", ptr @y, '
            '[4 x i8] zeroinitializer, i64 1, ptr getelementptr (i8, ptr @x, i64 24), [4 x i8] zeroinitializer }>, align 16\n')
assert ran.stdout == constant, ran.stdout
print(f'narrow.py: {len(REFUSED) + len(PASSED)} cases')
