"""Decks of any size: what `tools/speed` measures, and `checks/budgets` holds to its budgets."""


def statements_of(count):
    """Returns a deck of so many loops of two statements each, whose arrays and shifts are drawn."""
    state = count

    def draw(much):
        nonlocal state
        state = (state * 1103515245 + 12345) % 2**31
        return state // 65536 % much

    lines = ["      INTEGER A(200), B(200), C(200)"]
    for loop in range(1, count + 1):
        lines.append(f"      DO {10 + loop} I = 1, 100")
        for _ in range(2):
            left, up, right, shift, more = "ABC"[draw(3)], draw(5), "ABC"[draw(3)], draw(5), draw(10)
            lines.append(f"      {left}(I+{up}) = {right}(I+{shift}) + {more}")
        lines.append(f"{10 + loop:5} CONTINUE")
    return [*lines, "      PRINT *, A(100), B(100), C(100)", "      END"]


def in_one_loop(count):
    """Returns a deck of one loop with so many statements, each on an array that the one before reads."""
    arrays = [f"A{number}" for number in range(20)]
    lines = [f"      INTEGER {name}(100)" for name in arrays] + ["      DO 10 I = 1, 100"]
    lines += [f"      {arrays[it % 20]}(I) = {arrays[(it + 1) % 20]}(I) + {it}" for it in range(count)]
    return [*lines, "   10 CONTINUE", "      PRINT *, A0(1)", "      END"]


def in_seven_loops(count):
    """Returns a deck of seven loops around so many statements."""
    names = ["I", "J", "K", "L", "M", "N", "II"]
    lines = [f"      INTEGER A{it}({','.join(['3'] * 7)})" for it in range(count)]
    lines += [f"      DO 10 {name} = 1, 3" for name in names]
    at = ",".join(names)
    lines += [f"      A{it}({at}) = A{(it + 1) % count}({at}) + {it}" for it in range(count)]
    return [*lines, "   10 CONTINUE", "      PRINT *, A0(1,1,1,1,1,1,1)", "      END"]


def on_one_array(loops):
    """Returns a deck of so many loops around 200 statements with 400 references of one array."""
    names = ["I", "J"][:loops]
    lines = [f"      INTEGER A({','.join(['900'] * loops)})"] + [f"      DO 10 {name} = 1, 400" for name in names]
    for it in range(200):
        left, right = (",".join(f"{name}+{more}" for name in names) for more in (it, (7 * it + 3) % 200))
        lines.append(f"      A({left}) = A({right}) + 1")
    return [*lines, "   10 CONTINUE", f"      PRINT *, A({','.join(['5'] * loops)})", "      END"]


def in_a_kept_loop(count):
    """Returns a deck of one loop with so many statements that is kept, since it prints."""
    return ["      INTEGER A(9)", "      DO 10 I = 1, 9", *["      A(I)=1"] * count, "   10 PRINT *, A(I)", "      END"]


def of_long_statements(count):
    """Returns a deck of one loop with so many statements of about 1,300 characters, which have some 1,000 nodes."""
    lines = ["      INTEGER A(100)", "      DO 10 I = 1, 100"]
    for it in range(count):
        text = f"A(I)={it}" + "+I*3-7/I" * 160
        lines += [("      " if not at else "     1") + text[at : at + 66] for at in range(0, len(text), 66)]
    return [*lines, "   10 CONTINUE", "      PRINT *, A(1)", "      END"]


def of_bytes(much):
    """Returns a deck of at most so many bytes: assignments to scalars between two lines."""
    lines, left, number = [], much - 200, 0
    while True:
        line = f"      I{number % 500:03} = I{(number + 7) % 500:03} * 3 + {number % 1000}"
        left -= len(line) + 1
        if left < 0:
            return [*lines, "      PRINT *, I000", "      END"]
        lines.append(line)
        number += 1


def elementwise(loops, count):
    """Returns a deck of so many loops round so many statements, each of which adds to the elements of its own array."""
    names = ["I", "J", "K", "L", "M", "N", "II"][:loops]
    at = ",".join(names)
    lines = [f"      INTEGER A{it}({','.join(['3'] * loops)})" for it in range(count)]
    lines += [f"      DO 10 {name} = 1, 3" for name in names]
    lines += [f"      A{it}({at}) = A{it}({at}) + {it}" for it in range(count)]
    return [*lines, "   10 CONTINUE", f"      PRINT *, A0({','.join(['1'] * loops)})", "      END"]


def on_many_arrays(count):
    """Returns a deck of one loop round so many statements, which have twice as many arrays."""
    lines = [f"      INTEGER {side}{it}(100)" for side in "AB" for it in range(count)] + ["      DO 10 I = 1, 100"]
    lines += [f"      A{it}(I) = B{it}(I) + {it}" for it in range(count)]
    return [*lines, "   10 CONTINUE", "      PRINT *, A0(1)", "      END"]


def of_turns(turns):
    """Returns a deck that adds to each of 1,000 elements so often."""
    lines = ["      INTEGER A(1000)", f"      DO 20 I = 1, {turns}", "      DO 10 J = 1, 1000", "   10 A(J) = A(J) + I"]
    return [*lines, "   20 PRINT *, A(7)", "      END"]
