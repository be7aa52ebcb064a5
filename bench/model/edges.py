"""Made by hand: lines at the edges of what is allowed, and large scripts."""
from collections.abc import Iterator

from play import LARGEST_SCRIPT
from worked import Script, parts, rows


LONG, TOO_LONG = "N" * 64, "N" * 65
HEAD = rows("@shape/unit U/task T 5/task S 5/protected O 20/scalar 0 1 0/function Get 0 1/procedure P in 0 9/entry E 1/suspension Q"
            "/@list/allow * * */@steps")
SUSPENSION_CALLS = ["Suspend_Until_True"] * 4 + ["Set_True"] * 4 + ["Set_False", "Current_State", "set_true", "Set_True 1", "SET_FALSE"]
OPENINGS = parts("""@list | @shape | @steps | @List | @SHAPE | @step | @ | @unit | @host.toml | @run | @journal | @end | @list x
| @stepss | @@list""") + ["@steps ", "@steps\t", " @steps", "@shape\x0b", "@\tlist"]
SHAPE_LINES = parts("""task $N 15 | suspension $N | protected $N 35 | scalar 0 1 0 | scalar 0 1 2 | scalar 1 0 0 | scalar 0 2 0
| function $N 0 1 | function $N 1 0 | function $N 0 1 out 0 1 | procedure $N | procedure $N in 0 1 | procedure $N in 1 0
| procedure $N in 0 2147483648 | procedure $N in 0 | entry $N open | entry $N 1 | entry $N 2 | entry $N 0 | entry $N 33
| entry $N -1 | entry $N 01 | entry $N -0 | entry $N OPEN | handler $N 5 | handler $N 05 | handler $N -0 | handler $N 10
| handler $N 0 | handler $N 5 in 0 1 | unit $N | task $N 0 | task $N 41 | task $N -5 | protected $N 0 | protected $N 41 | | # c
| Task $N 3 | procedure $N in 0 1 in 0 1 in 0 1 in 0 1 in 0 1 | scalar 0 1 | scalar 0 1 0 0 | function $N | function $N 0
| task $N | task $N 15 15 | suspension $N 3 | suspension | inout | procedure $N inout 0 1 out 0 1 in -5 -6 | entry $N
| entry $N open in 0 | entry $N closed out 0 1 | procedure $N In 0 1 | procedure $N in out 0 1 | protected $N 000000000000000005
| protected $N 0000000000000000005 | task $N -999999999999999999 | protected $N +5 | handler $N 000000000000000005""")
NAMES = ["Valve", "o", "1x", "N_", "N__M", "N_M_1", "begin", "Set_True", "x.y", "é", LONG, TOO_LONG]
LIST_LINES = parts("""allow * * * * | allow * * | Allow * * * | allow a b c | allow a. b.c d | allow a b.c d.e | allow a.b * *
| allow * *.a * | allow * a.* * | allow a_ * * | allow _a * * | allow a b.c 1d | allow * * * # x | # | deny | * * * * | allow * * #
| permit a b c | permit a | allow * ** * | allow a b..c d | allow a b.c.d e | allow é * * | allow * * - | allow begin end.loop if
| allow * * * from 0 until 1 | allow * * * FROM 05 Until 007 | allow * * * from 5 until 5 | allow * * * from 6 until 5 | allow * * * from 5
| allow * * * from 5 until | allow * * * from 5 until 6 7 | allow * * * until 5 from 6 | allow * * * form 5 until 6 | allow * * * from 5 untill 6
| allow * * * from -1 until 6 | allow * * * from +1 until 6 | allow * * * from x until 6 | allow * * * from 1 until 1.5 | allow * * * from -0 until 6
| allow * * * from 0 until 1000000000000000 | allow * * * from 0 until 1000000000000001 | allow * * * from 999999999999999 until 1000000000000000
| allow * * * from 1000000000000000 until 1000000000000001 | allow * * * from 000000000000000001 until 000000000000000002
| allow * * * from 0000000000000000001 until 2 | allow * * * from 1 until 0000000000000000002 | allow a b c from 5 until 5 | permit a b c from 5 until 5
| allow a b c form 5 until 6 | deny from until.from until from 1 until 2 | allow * * * from 1 until 2 # x | allow * * * from 1 until \u0662
""") + [" #", " # x", "\t#", "allow\x0b* * *", "allow * *\r *", "#\x00", "\x00", f"allow {LONG} * *", f"allow {TOO_LONG} * *",
        f"deny * * {TOO_LONG}", f"deny * {LONG}.{LONG} {LONG}", f"deny * N.{TOO_LONG} *", " deny\t*  a.B   * "]
STEP_LINES = parts("""$T | $T call | $T call $O | $T call $O x | $T call $O 1x | $T call $O a.b | $T call $O P 1 2 3 4
| $T call $O P 1 2 3 4 5 | $T call $O.x Get | $T call $O P +1 | $T call $O P x | $T call $O P 1.0 | $T call $O Get :
| $T call nope.nope Get | no.no call $O Get | no.no resume | no.no end : return | $T end | $T end : | $T end return
| $T end : return | $T end : Return | $T end :return | $T end 1 1 | $T end 1: return | $T end : : return | $T end x : return
| $T end : return x | $T end : return 1 2 3 4 | $T end : return 1 2 3 4 5 | $T end : raise | $T end : raise Foo
| $T end : raise constraint_error | $T end : raise Access_Denied | $T end : raise Program_Error x | $T end : overrun 1
| $T end : stopped 1 | $T end : overrun | $T end : stopped | $T end : OVERRUN | $T end : raise Constraint_Error | $T resume
| $T resume 1 | $T RESUME | $T finish | $T go | $T clock | $T delay 5 | $T tick 1 | $T halt | $T fire | $T append allow * * *
| $T remove 1 | $T replace 1 allow * * * | Int_3 resume | INT_3 call $O Get | Int_3 end : return | Int_10 resume
| Int_03 resume | Int_ resume | x resume | operator.x resume | x.y.z resume | a_.b resume | operator call $O Get
| operator end : return | operator resume | $T load x | operator load x | operator list | operator append | operator append #x
| operator append allow | operator append ALLOW * * * | operator append allow a b c | operator append allow * * * x
| operator remove | operator remove 1 1 | operator remove x | operator remove -1 | operator remove 0 | operator remove +1
| operator remove 999999999999999999 | operator remove 1000000000000000000 | operator replace 0 allow * * * | operator Remove 1
| operator replace -5 deny * * * | operator replace 0 allow a b c | operator replace 1 allow * * | operator replace a allow * *
| operator append allow * * * from 5 until 6 | operator append allow * * * from 5 until 5 | operator append allow * * * from 5
| operator replace 1 deny * * * FROM 00 until 01 | operator replace 99 allow * * * from x until 6 | $T append allow * * * from 1 until 2
| operator replace 1 # x | operator replace 1 | no.no append allow * * * | no.no end x | no.no call $O | no.no append allow *
| $T append allow * | operator call nope.x y | Int_5 call nope.x y | # x | é.x resume | $T call $O Get \u0661 | operator
| $T call $O P 007 | $T call $O P -0 | $T call $O P 0099 | u.s END : return | u.s end 001 -0 : return 0005 | @foo resume
| U.T call u.q set_TRUE | U.T call U.Q Set_True 5 | U.T call U.Q nope | OPERATOR resume | operator append allow\tu   U.o  *
| operator remove 002 | operator remove -0 | operator replace 99 allow a b c | $T call $O P 1000000000000000000
| $T call $O P -999999999999999999 | a. resume | $T delay | $T delay 5 6 | $T delay x | $T delay +5 | $T delay 007 | $T delay -0
| $T delay until 5 | $T Delay 5 | $T delay 1000000000000000000 | $T delay 999999999999999999 | $T delay 1000000000000000
| $T delay 1000000000000001 | $T delay -1000000000000000 | $T delay -1000000000000001 | no.no delay 5 | no.no delay x | operator delay 5
| Int_3 delay 5 | $T clock 1 | $T Clock | no.no clock | operator clock | Int_3 clock | $T finish now | $T Finish | no.no finish
| operator finish | Int_3 finish | operator tick | operator tick 1 2 | operator tick x | operator tick 1.5 | operator tick 001
| operator tick -0 | operator tick 0 | operator tick -1 | operator tick 1000000 | operator tick 1000001 | operator tick 1000000000000000000
| operator Tick 1 | OPERATOR tick 1 | Int_3 tick 1 | no.no tick 1 | operator halt | operator halt now | operator Halt | Int_3 halt
| no.no halt | Int_0 fire | INT_9 fire | Int_3 fire x | Int_3 Fire | operator fire | no.no fire | Int_10 fire | operator.x fire
| U.T call U.Q Suspend_Until_True | u.t call u.q SUSPEND_until_TRUE | U.T call U.Q Suspend_Until_True 0 | U.T call U.Q Current_State
| U.T call U.Q Suspend | U.S call U.Q Set_True | operator call U.Q Set_True | Int_3 call U.Q Set_True""") \
    + parts("$T go 2 | $T go 0 | $T go -1 | $T go x | $T go 1 1 | $T Go | operator go | no.no go | Int_3 go") \
    + ["\x0c", "\u00a0", "$T\x0bresume", " \t$T  \t resume\t", f"{TOO_LONG}.x resume", f"x.{LONG} resume", f"$T call $O {TOO_LONG}",
       f"$T end {'0 ' * 32}: return", f"$T end {'0 ' * 33}: return"]
SHAPES_BASE = parts("""@shape | unit A | task T 3 | protected H 33 | scalar 0 1 0 | handler X 1 | handler Y 7 | @shape | unit B | task K 5
| task L 6 | protected O 20 | scalar 0 1 0 | scalar -5 5 0 | function F 0 9 in 0 3 | procedure P in 0 1 out 0 1 | entry E 1 inout 0 2
| protected Q 35 | scalar 0 1 1 | handler G 4 | handler I 5 | procedure R | suspension Z""")
SHAPES_EDITS = {  # a line, and what may stand in its place
    "unit B": "unit a|unit A|unit ada|unit Standard|unit SYSTEM|unit host|unit Interrupts|unit B C|unit O|Unit B||\tunit  B "
              "|# x/unit B|unit Operator|unit Int_5|unit B/# x",
    "task K 5": "task K 0|task K 41|task K -1|task K 40|task K 1|task K|task K 5/scalar 0 1 0|task L 5|task K 5/task o 5",
    "protected O 20": "protected O 0|protected O 41|protected O 40|protected O -1|protected O 20/handler W 0|protected K 20"
                      "|protected O 30/handler W 0|protected O 31/handler W 7|protected Z 20|protected O 20/procedure e"
                      "|protected O 0/handler W 0|protected O 41/handler W 0|protected O 30/handler W 0/handler V 0",
    "scalar -5 5 0": "scalar 1 0 0|scalar 1 0 1|scalar 0 5 6|scalar 0 5 -1|scalar 0 5 5|scalar -2147483649 0 0|scalar 0 2147483648 0"
                     "|scalar -2147483648 2147483647 0|scalar 0 5|scalar 0 5 0 0|task M 1/scalar 0 5 0|suspension M/scalar 0 5 0",
    "function F 0 9 in 0 3": "function F 1 0|function F 0 2147483648|function F -2147483649 0|function F 2 2|function F 0 9 out 0 1"
                             "|function F 0 9 in 1 0|function F 0 9 in 0 2147483648|function f 0 9/procedure F|function F 0 9 in 0"
                             "|function F 0 9 in 0 1 in 0 1 in 0 1 in 0 1|function F 0 9 in 0 1 in 0 1 in 0 1 in 0 1 in 0 1",
    "procedure P in 0 1 out 0 1": "procedure P in 1 0|procedure P out 1 0|procedure P inout 0 2147483648|procedure P out -2147483649 0"
                                  "|procedure P in 0 1 in 0 1 out 0 1 inout 0 1 in 0 1|procedure P in 3 3|procedure e|procedure f",
    "entry E 1 inout 0 2": "entry E 2|entry E 3|entry E 0|entry E Open|entry E open|entry E closed/entry D open|entry E 01|entry E",
    "protected Q 35": "protected Q 30|protected Q 31|protected Q 0|protected Q 41|protected o 35|protected Q 99|protected Q -4"
                      "|protected Q 35/entry E 2|protected Q 35/entry E 1/scalar 0 1 5|protected Q 35/entry R 1",
    "handler I 5": "handler I 1|handler I 7|handler I 4|handler g 5|handler I 10|handler I -1|handler I x|handler I 05",
    "suspension Z": "suspension z/suspension Z|suspension L|suspension|suspension Z 1|protected Z 41|",
}
SHAPES_REPEATS = (  # a line, what is put behind it over and over, and how often
    ("suspension Z", "suspension S{}", (252, 253, 254)), ("task L 6", "task T{} 1", (60, 61, 62)),
    ("scalar -5 5 0", "scalar 0 1 0", (29, 30, 31)), ("procedure R", "procedure M{}", (12, 13, 14)),
    ("unit A", "suspension S{}", (250, 251, 252, 253)), ("unit A", "task M{} 1", (59, 60, 61, 62)),
    ("unit A", "@shape/unit V{}", (61, 62, 63, 64)),
)
STRANGE_SETTINGS = [
    "capacity = 64\r\nbudget = 5\r\n", "\ufeffcapacity = 64", "capacity\t=\t64", "capacity = 64\n\x00", "# \x7f", "# \x1f", "#\t", "# é",
    "x = '''\n'''\n", "capacity = 18446744073709551616", "capacity = 9223372036854775807", "[[device]]\n" * 3, "device = [[]]",
    "device = {}", "[device]\n", "x = 1\n[x]", "a.b = 1\na.c = 2", "a.b = 1\na = 2", "'capacity' = 20", '"cap\\u0061city" = 20',
    '"cap\\x61city" = 20', '"\\e" = 1', "x = {a = 1,}", "x = {a = 1,\n b = 2}", "x = [1,\n2,\n]", "x = 1979-02-30",
    "x = 1979-05-27T07:32:00Z", "x = 1979-05-27 07:32:00.5+01:00", "x = 1e", "x = .5", "x = 5.", "x = 1.5e+3", "x = +nan", "x = tru",
    "x = 'a", 'x = "\\ud800"', 'x = "\\U0010ffff"', 'x = """a"""b"', "x = [1 2]", "x = ]", "x", "x =", "= 1", "é = 1", "[]", "[a.]",
    "[a]\n[a]", "[a.b]\n[a]", "[[a]]\n[a]", "[a]\n[[a]]", "capacity = 0xFF", "capacity = 0xff", "capacity = 0x_40", "capacity = 1__0"]
LISTED = "@list\n" + "allow * * *\n" * 512
BODIES = rows("U.T call U.O Get/U.T end 0 : return 0/U.T end : return 0 0/U.T end : return 2/U.T end : return/U.T end : raise Program_Error"
              "/U.T call U.O P 5/U.T end : return/U.T end 2 : return/U.T end 1 : return 1/U.T end 1 : overrun")
TEXTS = [
    "@host.toml", "@host.toml\n", "@host.toml\n@steps\n", "@host.toml\n@host.toml\n", "@list\n@host.toml\n", "@host.toml ", "\n@host.toml\n",
    "#\n@host.toml\n", "@host.toml\ncapacity = 64\r", "@host.toml\ncapacity = 64\r\r\n", "@host.toml\n@\n", '@host.toml\nx = """\n@steps\n"""\n',
    "@host.tom", "@HOST.toml\n", "@host.toml\nx\n@foo\n", "@foo\n@host.toml\nx\n",
    "", "\n \n\t\n", "\r\n\r\n@steps\n", "@steps\r", "\r", "\x0c\n@steps\n", "\u00a0\n@steps\n", "\x00", "\ufeff@steps\n", "\n\nx\n@steps\n",
    "x\n@foo\n", "#\n@steps\n", "@list", "@shape", "@shape\n@steps\n", "@list\n@list\n", "@shape\nunit U", "@shape\nunit U\r", "@shape\nunit U\n\n",
    "@shape\n\nunit U\n", HEAD + "U.T\rresume\n", HEAD + "U.T resume\r\r\n", HEAD + "U.T resume\r", HEAD + "\r", HEAD + BODIES,
    HEAD + rows("@steps/U.T resume/@shape/unit V/@steps/@list/@steps/U.T call U.O Get"), HEAD + rows("V.T resume/@shape/unit V/task T 1"),
    HEAD + rows("U.T call U.Q Suspend_Until_True/U.T go/U.S call U.Q Set_True/U.T go 2"),
    HEAD + rows("@shape/unit Operator/task T 1/@steps/OPERATOR.t resume"), HEAD + rows("operator append  /"),
    LISTED + "@steps\noperator append deny * * *\noperator remove 512\noperator append deny * * *\noperator append bad\n",
    LISTED + "\n#\nbad\n", "@list\nbad\n" + LISTED[6:] + "bad\n", "@list\nallow * * *\r", "@list\n#\x00\n\x00\n",
]
BAD_BYTES = [b"@list\n# \xe9\n", HEAD.encode() + b"U.T resume\n\xff", b"@list\n#\xc0\xaf\n", b"@list\n#\xed\xa0\x80\n", b"@list\n#\xe2\x82",
             b"@list\n#\xf4\x8f\xbf\xbf\n"]


def edited_shapes(edits: dict[str, str]) -> bytes:
    """The two shapes with other text in place of these lines."""
    return rows("/".join(edits.get(line, line) for line in SHAPES_BASE)).encode()


def repeated(line: str, text: str, times: int) -> str:
    return line + "".join("/" + text.format(place) for place in range(times))


def edge_scripts() -> Iterator[Script]:
    texts = TEXTS + [f"@host.toml\n{text}\n@steps\n" for text in STRANGE_SETTINGS] + [HEAD + opening + "\n" for opening in OPENINGS]
    texts += [f"@list\n{line}\n" for line in LIST_LINES] + [f"{HEAD}operator append {line}\n" for line in LIST_LINES]
    lines = [line.replace("$T", "U.T").replace("$O", "U.O") for line in STEP_LINES]
    texts += [HEAD + line + "\nU.T resume\nU.T clock\n" for line in lines]
    texts += [HEAD + "operator halt\n" + line + "\n" for line in lines]
    texts += [HEAD + "U.T call U.O P 1\n" + line + "\n" for line in lines]
    shape = rows("@shape/unit U/protected O 35/scalar 0 1 0")
    texts += [shape + line.replace("$N", name) + "\n" for line in SHAPE_LINES for name in (NAMES[0], TOO_LONG)]
    texts += [f"@shape\nunit {name}\ntask {name} 1\nprotected O 1\nprocedure {name}\n" for name in NAMES]
    yield from (Script(text.encode()) for text in texts)
    yield from (Script(text) for text in BAD_BYTES)
    for line, edits in SHAPES_EDITS.items():
        yield from (Script(edited_shapes({line: text})) for text in edits.split("|"))
    for line, text, counts in SHAPES_REPEATS:
        yield from (Script(edited_shapes({line: repeated(line, text, times)})) for times in counts)


def large_scripts() -> Iterator[Script]:
    """Scripts about as long as is allowed, and long words, lines and sections."""
    whole = LARGEST_SCRIPT
    yield from (Script(text) for text in (
        b"@list\n#" + b"x" * (whole - 8) + b"\n", b"@list\n#" + b"x" * (whole - 7) + b"\n", b"\xff" * (whole + 1),
        b"\n" * (whole - 1) + b"\xff", b"\n" * (whole + 1), b"\n" * whole, b"@foo\n" * (whole // 5)))
    shape = "@shape\nunit U\nprotected O 1\n"
    yield from (Script(text.encode()) for text in (
        f"{HEAD}U.T call U.O P {'1 ' * 1_000_000}\n", f"{HEAD}U.T call U.O P {'0' * 1_000_000}\n", f"{HEAD}{'N' * 5_000_000}.T resume\n",
        f"{HEAD}U.T end {'0 ' * 1_000_000}: return\n", f"@steps{'s' * 5_000_000}\n", f"@list\nallow {'N' * 5_000_000} * *\n",
        f"@list\nallow{' *' * 3_000_000}\n", f"{HEAD}{' ' * 8_000_000}\nU.T resume\n", HEAD + "\n" * 100_000 + "x\n",
        shape + "".join(f"suspension S{place}\n" for place in range(20_000)), shape + "procedure P" + " in 0 1" * 5_000 + "\n",
        shape + "".join(f"procedure P{place}\n" for place in range(20_000)), shape + "scalar 0 1 0\n" * 20_000 + "entry E 20000\n",
        "@list\n@steps\n" * 3_000, "@list\nallow * * *\n" * 6_000, HEAD + "U.T resume\n" * 20_000,
        HEAD + "U.T call U.O Get\nU.T end : return 0\n" * 2_100))
