"""Short unit texts made by hand, at the edges of the grammar."""
from collections.abc import Iterator

from worked import Script, parts

# in the statements ! stands for a bar
EXPRESSIONS = parts("""A and B and C | A and then B and then C | A and then B and C | A and B and then C | A or else B or C | A or B or else C | A and B or C
| A xor B xor C | A xor B and C | A and then B or else C | A = B = C | A < B <= C | (A = B) = C | not A and B | not not A | abs - 1
| - abs A | - - A | + A - B | A - - B | A * - B | - A * B | A mod B rem C | A ** B | (A) | ((A)) | () | A () | A (1) | A (1, 2)
| A (1) (2) | A (1).B | A (1)'First | A'First | A'First'Last | A.B'First | A.B.C | A. | A.1 | 1.A | A'range | A' | 1'First | A := B
| A => B | 1 .. 2 | not | and | A B | A, B | (A, B) | A (B => 1) | A (1 .. 2) | others | null | "a" | 'a' | A'B | A' B | 16#FF# | 1_0
| A (B (C (1))) | A.B (1) | A.B (1) + C | (A).B | - (A) | not (A) | abs (A) | (- A) * B""")
STATEMENTS = parts("""null; | null | A; | A.B; | A (1); | A (1); ; | A := 1; | A.B := 1; | A (1) := 2; | A () ; | := 1; | if A then null; end if;
| if A then null; else null; end if; | if A then null; elsif B then null; end if; | if A then null; elsif B then null; else null; end if;
| if A then end if; | if A then null; else end if; | if A then null; end; | if A null; end if;
| if A then null; else null; elsif B then null; end if; | case A is end case; | case A is when 1 => null; end case;
| case A is when 1 .. 2 => null; end case; | case A is when 1 .. 2 .. 3 => null; end case; | case A is when others => null; end case;
| case A is null; end case; | loop null; end loop; | loop end loop; | while A loop null; end loop; | while loop null; end loop;
| for I in A loop null; end loop; | for I in reverse A loop null; end loop; | for I in 1 .. 2 loop null; end loop;
| for I in A range 1 .. 2 loop null; end loop; | for I in A.B range 1 .. 2 loop null; end loop;
| for I in 1 range 1 .. 2 loop null; end loop; | for I in (A) range 1 .. 2 loop null; end loop;
| for I in A'First range 1 .. 2 loop null; end loop; | for I in A (1) range 1 .. 2 loop null; end loop;
| for I in A + B range 1 .. 2 loop null; end loop; | for I in not A range 1 .. 2 loop null; end loop;
| for I in A range 1 loop null; end loop; | for I in A range B loop null; end loop; | for A.B in C loop null; end loop; | exit;
| exit when A; | exit A; | exit when; | return; | return A; | raise; | raise A.B; | raise A with B; | delay A; | delay until A; | delay;
| delay until; | abort A; | abort A, B.C; | abort; | requeue A; | requeue A.B with abort; | requeue A with; | requeue A (1); | requeue;
| accept A; | accept A (B : C); | accept A do null; end; | accept A do null; end A; | accept A do end;
| accept A (B : in out C; D : E) do null; end A; | accept A.B; | accept A (1); | select A; end select; | select A; or B; end select;
| select A; else null; end select; | select A; then abort null; end select; | select A; else null; then abort null; end select;
| select when A => B; or terminate; end select; | select terminate; end select; | select terminate; null; end select; | select end select;
| select when A => end select; | select A; or end select; | select A; then null; end select; | select A; or else B; end select;
| terminate; | begin null; end; | declare null; | goto A; | <<A>> null; | A : B; | pragma A; | end; | null; null; | null; end T; end P; x
| exception when A => null; | null; exception when A => null; | null; exception when A ! B.C => null;
| null; exception when others => null; when A => null; | null; exception | null; exception null;
| null; exception when A ! others => null; | null; exception when => null; | null; exception when A, B => null;
| null; exception when A : others => null; | if A then null; exception when A => null; end if; | raise A; null; | abs; | A'First; | 1;
| (A);""")
DECLARATIONS = parts("""A : B; | A, B : C; | A : constant := 1; | A : constant B := 1; | A : constant B; | A : B := 1; | A : B range 1 .. 2;
| A : constant B range 1 .. 2 := 1; | subtype A is B; | subtype A is B range 1 .. 2; | subtype A is B range 1; | subtype A is 1 .. 2;
| subtype A.C is B; | subtype A is range 1 .. 2; | type A is B; | pragma A; | pragma A (1); | pragma A (); | pragma A (B => 1);
| pragma A (B => 1, 2, C => D => 3); | pragma A (B.C => 1); | pragma A (B, C); | pragma A B; | pragma A.B; | task A; | task type A;
| task A is end; | task A is end A; | task A is entry B; end A; | task A is entry B (C : D); pragma E; end A;
| task A is procedure B; end A; | task A with B; | task A with B => 1, C; | task A with B => 1 is end; | task A with;
| task body A is begin null; end; | protected A is end; | protected A is end A; | protected type A is end; | protected A;
| protected A is private end; | protected A is private B : C; end; | protected A is B : C; end;
| protected A is private B : C := 1; D, E : F range 1 .. 2 := 1; end; | protected A is private B : constant C := 1; end;
| protected A is function B return C; end; | protected A is function B; end; | protected A is function B (C : D) return E; end;
| protected A is function B return C with D; end; | protected A is procedure B; end; | protected A is procedure B with C => 1; end;
| protected A is procedure B (); end; | protected A is procedure B (C : in D; E : out F; G : in out H; I, J : K); end;
| protected A is procedure B (C : out in D); end; | protected A is procedure B (C : D,); end; | protected A is procedure B (C : D;); end;
| protected A is procedure B (C : D := 1); end; | protected A is entry B; end; | protected A is entry B with C; end;
| protected A is entry B (C); end; | protected A is pragma B; private pragma C; function D return E; end; | procedure A;
| protected A with B => 1 is end; | protected A is private private end; | protected body A is end; | function A return B; | entry A;
| null; | A; | A : ; | : B; | A B; | use C; | with C; | body A is | is | protected A.B is end; | protected A is end A.B;
| task A is end; end | package Q is end Q; | private | private A : B;""")
BODIES = parts("""protected body A is end; | protected body A is end A; | protected body A is begin null; end;
| protected body A is function B return C is begin null; end; end; | protected body A is function B is begin null; end; end;
| protected body A is procedure B is begin null; end B; end A; | protected body A is procedure B (C : D) is begin null; end; end;
| protected body A is entry B when C is begin null; end; end; | protected body A is entry B is begin null; end; end;
| protected body A is entry B (C : D) when E and F is begin null; end; end; | protected body A is procedure B; end;
| protected body A is pragma B; end; | protected body A is B : C; end; | task body A is begin end; | task body A is begin null; end;
| task body A is B : C; begin null; end; | task body A is B : constant C range 1 .. 2 := 1; D : E := 1; begin null; end;
| task body A is pragma B; task C; protected D is end; begin null; end; | task body A is task body B is begin null; end; begin null; end;
| task body A is protected body B is end; begin null; end; | task body A is subtype B is C; begin null; end; | task body A is null; end;
| task body A is begin null; begin null; end; end; | task body A; | task body A.B is begin null; end; | procedure A is begin null; end;
| begin null; | body A is""")
TEXTS = ["", " ", "-- only", "\n", "x", "package", "package P", "package P is end", "package P is end P; package body P is end P; x",
         "package P is end; package body P is end;", "package P is end; package body Q is end;",
         "package P.Q is end; package body P.Q is end;", "package P is end P.Q; package body P is end;", "package body P is end;",
         "package P is end; package P is end;", "package P is end;", "with A; package P is end; package body P is end;",
         "with A.B, C; use D; use type E.F, G; pragma H (1); with I; package P is end; package body P is end;",
         "with; package P is end; package body P is end;", "with A package P is end; package body P is end;",
         "use type; package P is end;", "PACKAGE p IS END P; Package Body p Is End;", "package P is end; with A; package body P is end;",
         "package P is private end; package body P is end;", "package P is end; package body P is begin null; end;",
         "package P is end; package body P is end; ;", "package P is end; package body P is end;\x00",
         "package P is end; -- é\r)\npackage body P is end;", "package P is end;--\npackage body P is end;--", "packége",
         "package\u00a0P", "package P is end; package body P is end;é"]


def unit_scripts() -> Iterator[Script]:
    body = "package body P is end P;"
    texts = [f"package P is end P; package body P is task body T is begin A := {each}; end T; end P;" for each in EXPRESSIONS]
    texts += [f"package P is end P; package body P is task body T is begin {each.replace('!', '|')} end T; end P;" for each in STATEMENTS]
    texts += [f"package P is {each} end P; {body}" for each in DECLARATIONS]
    texts += [f"package P is end P; package body P is {each} end P;" for each in DECLARATIONS + BODIES]
    texts += [f"package P is {each} end P; {body}" for each in BODIES]
    for text in texts + TEXTS:
        yield Script(f"@unit\n{text}".encode())
        yield Script(f"@unit\n{text}\n@list\n".encode())
