"""A network as a text for z3, and for cbc and glpsol."""
import re


def lp(net, sign):
    """One mixed-integer program for the greatest separation of the first row (sign 1) or the least (-1)."""
    a, b = net.rows[0]
    if sign < 0:
        a, b = b, a
    # No way from event to event is longer than this, so that times within it attain each separation; `big` is more than any side can lack.
    reach = 1 + 2 * sum(max(abs(end) for _, low, high in causes for end in (low, high) if end is not None) for _, _, causes in net.constraints)
    big = 3 * reach
    out, binaries = [f"Maximize\n obj: t{b} - t{a}\nSubject To"], []
    out.append(f" zero: t{a} = 0")
    for n, (kind, target, causes) in enumerate(net.constraints):
        choice = []
        for c, (event, low, high) in enumerate(causes):
            always_low = kind == "lin" or kind == "late" or len(causes) == 1
            always_high = kind == "lin" or kind == "early" or len(causes) == 1
            x = f"x{n}_{c}"
            if low is not None:
                if always_low:
                    out.append(f" t{target} - t{event} >= {low}")
                else:
                    out.append(f" t{target} - t{event} - {big} {x} >= {low - big}")
                    choice.append(x)
            if high is not None:
                if always_high:
                    out.append(f" t{target} - t{event} <= {high}")
                else:
                    out.append(f" t{target} - t{event} + {big} {x} <= {high + big}")
                    choice.append(x)
        if choice and len(causes) > 1:
            out.append(" " + " + ".join(choice) + " >= 1")
            binaries += choice
    out.append("Bounds")
    out += [f" -{reach} <= t{e} <= {reach}" for e in range(net.events) if e != a]
    if binaries:
        out.append("Binaries\n " + " ".join(binaries))
    out.append("End")
    return "\n".join(out) + "\n"


def smt_rules(net, zero):
    """The rules of a network, with an event at 0."""
    out = [f"(declare-const t{e} Int)" for e in range(net.events)] + [f"(assert (= t{zero} 0))"]
    part = lambda event, target, low, high: [f"(>= (- t{target} t{event}) {low if low >= 0 else f'(- {-low})'})" if low is not None else "true",
                                             f"(<= (- t{target} t{event}) {high if high >= 0 else f'(- {-high})'})" if high is not None else "true"]
    for kind, target, causes in net.constraints:
        sides = [part(event, target, low, high) for event, low, high in causes]
        if kind == "lin":
            out += [f"(assert {side})" for side in sides[0]]
        else:
            every, some = (0, 1) if kind == "late" else (1, 0)
            out += [f"(assert {side[every]})" for side in sides]
            out.append(f"(assert (or {' '.join(side[some] for side in sides)}))")
    return out


def smt(net, sign):
    a, b = net.rows[0]
    if sign < 0:
        a, b = b, a
    out = smt_rules(net, a)
    out += [f"(maximize (- t{b} t{a}))", "(check-sat)", "(get-objectives)"]
    return "\n".join(out) + "\n"


def smt_of_both(net):
    """Both sides of the first row in one text."""
    a, b = net.rows[0]
    out = ["(set-option :opt.priority box)"] + smt_rules(net, a)
    out += [f"(maximize (- t{b} t{a}))", f"(minimize (- t{b} t{a}))", "(check-sat)", "(get-objectives)"]
    return "\n".join(out) + "\n"


# A line of the objectives that z3 prints: the number, or an infinite one.
OBJECTIVE = re.compile(r"\) (\d+|\(- \d+\)|oo|\(\* \(- 1\) oo\))\)$", re.M)


def both_of(printed):
    """What z3 says of both sides, in the words of job settle. None of it, if it says nothing."""
    text = printed.decode()
    if text.startswith("unsat"):
        return ("finding inconsistent",)
    ends = [re.sub(r"[() ]", "", end) for end in OBJECTIVE.findall(text)]
    return tuple(f"{side} {'unbounded' if 'oo' in end else end}" for side, end in zip(("max", "min"), ends))


# glpsol deletes the file that it is to write, if it may, and then writes a new one. So it never gets the name of a device.
GLPSOL = 'glpsol --lp "$1" -o "$1.out" >"$1.log" && cat "$1.out"'

SOLVERS = (
    ("z3", "smt2", smt, lambda path: ["z3", path], r"\(objectives\s+\(.* (\(- \d+\)|\d+)\)\s*\)"),
    ("cbc", "lp", lp, lambda path: ["cbc", path, "solve"], r"Objective value:\s+(\S+)"),
    ("glpsol", "lp", lp, lambda path: ["sh", "-c", GLPSOL, "glpsol", path], r"Objective:\s+obj = (\S+)"),
)
