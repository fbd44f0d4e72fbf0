"""How tools/retarget.py rewrites each form of a line, and which forms it refuses."""
import pytest

from tools import retarget

# A line of a function, and the lines that replace it. %1 is the first new name, %2 the second.
KNOWN = [
    ("%p = load ptr, ptr %a, align 8, !noundef !1", ["%1 = load i64, ptr %a, align 8", "%p = inttoptr i64 %1 to ptr"]),
    ("store ptr %p, ptr %a, align 8", ["%1 = ptrtoint ptr %p to i64", "store i64 %1, ptr %a, align 8"]),
    ("store ptr null, ptr %a, align 8", ["%1 = ptrtoint ptr null to i64", "store i64 %1, ptr %a, align 8"]),
    ("%p = alloca ptr, align 8", ["%p = alloca i64, align 8"]),
    ("%n = ptrtoaddr ptr %p to i64", ["%n = ptrtoint ptr %p to i64"]),
    (
        "%r = load { i8, i64 }, ptr %a, align 8",
        [
            "%1 = load i8, ptr %a, align 8",
            "%4 = getelementptr i8, ptr %a, i64 8",
            "%2 = load i64, ptr %4, align 8",
            "%3 = insertvalue { i8, i64 } poison, i8 %1, 0",
            "%r = insertvalue { i8, i64 } %3, i64 %2, 1",
        ],
    ),
    (
        "%r = load { i32, i16 }, ptr %a, align 4",
        [
            "%1 = load i32, ptr %a, align 4",
            "%4 = getelementptr i8, ptr %a, i64 4",
            "%2 = load i16, ptr %4, align 2",
            "%3 = insertvalue { i32, i16 } poison, i32 %1, 0",
            "%r = insertvalue { i32, i16 } %3, i16 %2, 1",
        ],
    ),
    (
        "store { ptr, i64 } %v, ptr %a, align 8",
        [
            "%1 = extractvalue { ptr, i64 } %v, 0",
            "%2 = extractvalue { ptr, i64 } %v, 1",
            "%3 = getelementptr i8, ptr %a, i64 8",
            "%4 = ptrtoint ptr %1 to i64",
            "store i64 %4, ptr %a, align 8",
            "store i64 %2, ptr %3, align 8",
        ],
    ),
]
# Lines of a function that stay unchanged.
SAME = [
    "%n = load i64, ptr %a, align 8",
    "store <8 x i32> %v, ptr %a, align 4",
    "%b = getelementptr inbounds nuw i8, ptr %a, i64 12",
    "%b = getelementptr i8, ptr %a, i64 %n",
    "%b = alloca [24 x i8], align 8",
    "call void @llvm.memcpy.p0.p0.i64(ptr align 8 %a, ptr align 8 %b, i64 24, i1 false)",
    '%n = tail call fastcc i32 @"net_stack::calls::rx"(ptr %a, i64 %n)',
    "%c = icmp eq ptr %a, null",
    "%c = select i1 %b, ptr %x, ptr %y",
    "br i1 %c, label %x, label %y",
    "ret i32 0",
]
# Lines of a function that are refused.
REFUSED = [
    "%n = ptrtoint ptr %p to i64",
    "%p = inttoptr i64 %n to ptr",
    "%n = ptrtoint ptr %p to i32",
    "%v = load { i64, i64, i64 }, ptr %a, align 8",
    "%v = load { { ptr, i64 }, i64 }, ptr %a, align 8",
    "%v = load [2 x i64], ptr %a, align 8",
    "%v = load volatile ptr, ptr %a, align 8",
    "%v = load atomic i64, ptr %a seq_cst, align 8",
    "store { i64, i64, i64 } %v, ptr %a, align 8",
    "store [2 x ptr] %v, ptr %a, align 8",
    "%v = load <2 x ptr>, ptr %a, align 16",
    "%v = alloca { ptr, i64 }, align 8",
    "%v = alloca [2 x ptr], align 8",
    "%b = getelementptr ptr, ptr %a, i64 1",
    "%b = getelementptr inbounds { ptr, i64 }, ptr %a, i32 0, i32 1",
    "%b = getelementptr i8, ptr %a, i32 1",
    "call void %f(ptr %a)",
    "%n = call i64 @f(ptr byval({ ptr, i64 }) align 8 %a)",
    "call void @f(ptr sret({ ptr, i64 }) align 8 %a)",
    "%n = atomicrmw add ptr %a, i64 1 seq_cst, align 8",
    "%n = cmpxchg ptr %a, ptr %b, ptr %c seq_cst seq_cst, align 8",
    "%n = addrspacecast ptr %a to ptr addrspace(1)",
    "fence seq_cst",
    "invoke void @f() to label %x unwind label %y",
    "%n = va_arg ptr %a, i64",
    "%narrow.1 = add i64 %n, 1",
]
# Lines outside functions, and their replacements.
OUTSIDE = [
    (
        '@t = private unnamed_addr constant <{ ptr, [2 x i8] }> <{ ptr @s, [2 x i8] c"\\05\\00" }>, align 8',
        "@t = private unnamed_addr constant <{ ptr, [4 x i8], [2 x i8] }> "
        '<{ ptr @s, [4 x i8] zeroinitializer, [2 x i8] c"\\05\\00" }>, align 8',
    ),
    ('@s = private unnamed_addr constant [2 x i8] c"ab", align 1', None),
    ("declare void @rattle_dealloc(ptr)", None),
]
REFUSED_OUTSIDE = [
    "@t = private constant ptr @s, align 8",
    "@t = private constant [2 x ptr] [ptr @s, ptr @s], align 8",
    "@t = private constant { ptr, i64 } { ptr @s, i64 1 }, align 8",
    "@t = internal global i64 0, align 8",
    "@t = private constant <{ ptr, i64 }> <{ ptr inttoptr (i64 1 to ptr), i64 1 }>, align 8",
    "@t = private constant <{ i64 }> <{ i64 ptrtoint (ptr @s to i64) }>, align 8",
    "@a = alias ptr, ptr @b",
    "declare { ptr, i64 } @other(i64)",
    "declare void @other(ptr byval(i64))",
    "declare { i32, ptr } @rattle_alloc(i64, i64)",
    "%T = type { ptr, i64 }",
    'module asm "nop"',
    "define { i64, i64 } @shown(i64 %a) {",
    "define void @shown(ptr sret({ i64, i64 }) %a) {",
]


def function(line):
    return f"define internal i32 @f(ptr %a) {{\n{line}\n}}\n"


def rewritten(text):
    return retarget.retargeted(text).splitlines()


def named(line):
    return line.replace("%narrow.", "%")


@pytest.mark.parametrize("line", SAME)
def test_stays(line):
    assert rewritten(function(f"  {line}"))[1:-1] == [f"  {line}"]


@pytest.mark.parametrize("line, wanted", KNOWN)
def test_rewritten(line, wanted):
    assert [named(it) for it in rewritten(function(f"  {line}"))[1:-1]] == [f"  {it}" for it in wanted]


@pytest.mark.parametrize("line, wanted", OUTSIDE)
def test_outside_of_functions(line, wanted):
    assert rewritten(line) == [wanted or line]


@pytest.mark.parametrize("text", [*map(function, REFUSED), *(f"\n{it}\n" for it in REFUSED_OUTSIDE)])
def test_refused(text):
    """The error names the line by its number."""
    with pytest.raises(retarget.Stop, match="^line 2: "):
        rewritten(text)
