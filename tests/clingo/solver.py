"""Calls of clingo: answer sets of a plain program, whether given sets are answer sets, and the judgements of two more
programs. One is handed rules and sets as facts and gives the verdict, what the completion formulas make of the set, and
what the verdict was while missing came before clash. The other is handed laws and histories and reads them causally.
"""

import shutil
import subprocess
from typing import NamedTuple, Optional

from language import FALSE_HEAD, set_constraints

# Facts: rule(P,R,H,K): rule R of program P has head H (none: false) and K plain parts; neg(P,R,L), pos(P,R,I,L): its
# parts; case(C,P): case C is a set for program P; in(C,L): literal code L is in that set; history(C): every atom below
# size(P,N) must have a value.
#
# Missing and clash have one rank: the lowest atom with either fault decides, and no atom has both faults. A set that is
# no history has no missing. In the former order missing came before clash, whatever atom was lower; what it said is
# shown only to be held against the present verdict.
#
# The formulas are asked for a set that gives each atom just one value; any other is answered by its lowest atom with
# none or both. The formula of a literal fails where the literal is in the set and no body for it is met, or the other
# way round; that of false where a body for it is met. A body is met if its plain parts and the complements of its
# negated parts are in the set.
VERDICT_PROGRAM = """
dropped(C,R) :- case(C,P), in(C,L), neg(P,R,L).
kept(C,R) :- case(C,P), rule(P,R,_,_), not dropped(C,R).

bad(C,missing,A) :- case(C,P), size(P,N), A = 0..N-1, not in(C,2*A), not in(C,2*A+1).
bad(C,clash,L/2) :- in(C,L), L\\2 = 0, in(C,L+1).
fault(C,missing,A) :- bad(C,missing,A), history(C).
fault(C,clash,A) :- bad(C,clash,A).

outside(C,R) :- kept(C,R), case(C,P), pos(P,R,_,L), not in(C,L).
fault(C,broken,R) :- kept(C,R), case(C,P), rule(P,R,H,_), not outside(C,R), not in(C,H).

% the least closed set: the first I plain parts of rule R are in it
derived(C,R,0) :- kept(C,R).
derived(C,R,I+1) :- derived(C,R,I), case(C,P), pos(P,R,I,L), least(C,L).
least(C,H) :- derived(C,R,K), case(C,P), rule(P,R,H,K), H != none.
fault(C,unfounded,L) :- in(C,L), not least(C,L).

order(missing,0). order(clash,0). order(broken,1). order(unfounded,2).
rank(C,O) :- fault(C,F,_), order(F,O).
first(C,O) :- rank(C,_), O = #min{ Q : rank(C,Q) }.
place(C,N) :- first(C,O), N = #min{ M : fault(C,F,M), order(F,O) }.
verdict(C,F,N) :- first(C,O), order(F,O), place(C,N), fault(C,F,N).
verdict(C,passes) :- case(C,_), not fault(C,_,_).
#show verdict/2. #show verdict/3.

former(C,missing,N) :- fault(C,missing,_), N = #min{ M : fault(C,missing,M) }.
former(C,F,N) :- verdict(C,F,N), not fault(C,missing,_).
former(C,passes) :- verdict(C,passes).
#show former/2. #show former/3.

asked(C) :- case(C,_), not bad(C,_,_).
literal(P,0..2*N-1) :- size(P,N), N > 0.
unmet(C,R) :- asked(C), case(C,P), pos(P,R,_,L), not in(C,L).
unmet(C,R) :- asked(C), case(C,P), neg(P,R,L), not in(C,L^1).
met(C,H) :- asked(C), case(C,P), rule(P,R,H,_), not unmet(C,R).
fails(C,L) :- asked(C), case(C,P), literal(P,L), in(C,L), not met(C,L).
fails(C,L) :- asked(C), case(C,P), literal(P,L), met(C,L), not in(C,L).
fails(C,65535) :- met(C,none).

formulas(C,F,N) :- bad(C,F,N), N = #min{ M : bad(C,_,M) }.
formulas(C,fails,L) :- fails(C,_), L = #min{ M : fails(C,M) }.
formulas(C,holds) :- asked(C), not fails(C,_).
#show formulas/2. #show formulas/3.
"""

# Facts: steps(D,N): description D has N steps; fluents(D,N): its literals of fluents are those below N; law(D,L,S,H):
# law L is static or dynamic and has head H (none: false); if(D,L,K), after(D,L,K): literal K is in its list; case(C,D):
# case C is a history of D with one value for each atom; true(C,T,K): literal K is true in it at time T.
#
# A law applies at a time if its if-list holds there and, if it is dynamic, its after-list a step before. At time 0 only
# static laws apply, and nothing there needs a cause.
CAUSAL_PROGRAM = """
time(C,0..N) :- case(C,D), steps(D,N).
if_fails(C,L,T) :- case(C,D), if(D,L,K), time(C,T), not true(C,T,K).
after_fails(C,L,T) :- case(C,D), after(D,L,K), time(C,T), not true(C,T,K).
applies(C,L,T) :- case(C,D), law(D,L,static,_), time(C,T), not if_fails(C,L,T).
applies(C,L,T) :- case(C,D), law(D,L,dynamic,_), time(C,T), T > 0, not if_fails(C,L,T), not after_fails(C,L,T-1).

contradicted(C,T,L) :- applies(C,L,T), case(C,D), law(D,L,_,H), not true(C,T,H).
caused(C,T,H) :- applies(C,L,T), case(C,D), law(D,L,_,H).
uncaused(C,T,K/2) :- true(C,T,K), T > 0, case(C,D), fluents(D,N), K < N, not caused(C,T,K).

faulty(C,T) :- contradicted(C,T,_).
faulty(C,T) :- uncaused(C,T,_).
first(C,T) :- faulty(C,_), T = #min{ S : faulty(C,S) }.
causal(C,contradicted,T,L) :- first(C,T), contradicted(C,T,_), L = #min{ M : contradicted(C,T,M) }.
causal(C,uncaused,T,F) :- first(C,T), not contradicted(C,T,_), F = #min{ G : uncaused(C,T,G) }.
causal(C,path) :- case(C,_), not faulty(C,_).
#show causal/2. #show causal/4.
"""

# A call of one of the two programs takes cases of about so many rule parts.
BATCH = 60000

# Each answer set is looked for anew, so that those found are not neighbours.
RANDOM = ["--rand-freq=1", "--sign-def=rnd", "--restart-on-model", "--enum-mode=record"]


def installed():
    return shutil.which("clingo") is not None


def run(program, options):
    """The answer sets printed, and whether there are no others."""
    command = ["clingo", "--warn=none", "--verbose=1", *options, "-"]
    done = subprocess.run(command, input=program, capture_output=True, text=True)
    if done.returncode not in (10, 20, 30):
        raise RuntimeError("clingo failed (%d):\n%s" % (done.returncode, done.stderr))
    found, lines = [], iter(done.stdout.splitlines())
    for line in lines:
        if line.startswith("Answer:"):
            found.append(next(lines).split())
    return found, done.returncode in (20, 30)


def answer_sets(rng, program, limit, more=""):
    """At most `limit` answer sets of a program with some more rules, drawn at random; True if that is all."""
    options = ["--models=%d" % limit, "--seed=%d" % rng.randrange(1, 2 ** 30), *RANDOM]
    found, whole = run(program.plain + more, options)
    return sorted((frozenset(map(program.literals.__getitem__, one)) for one in found), key=sorted), whole


def are_answer_sets(program, sets):
    """For each set of codes, whether it is an answer set of the program.

    One of the sets is picked, each of its literals required and every other one forbidden, so there is one answer set
    for each of the given sets that is one.
    """
    if not sets:
        return []
    picking = "{ pick(0..%d) } = 1. #show pick/1.\n" % (len(sets) - 1)
    picking += "".join(set_constraints(program, codes, "pick(%d), " % number) for number, codes in enumerate(sets))
    found, complete = run(program.plain + picking, ["--models=0"])
    if not complete:
        raise RuntimeError("clingo stopped before the last answer set")
    picked = set().union(*found)
    return ["pick(%d)" % number in picked for number in range(len(sets))]


class Judged(NamedTuple):
    """What the two programs say of a case."""

    verdict: str
    formulas: str
    former: str  # the verdict while missing came before clash
    causal: Optional[str]  # None for a table, and where some atom has no value or both


def rule_facts(number, program):
    facts = ["size(%d,%d)." % (number, program.atoms)]
    for place, (head, negated, plain) in enumerate(program.rules):
        named = "none" if head == FALSE_HEAD else str(head)
        facts.append("rule(%d,%d,%s,%d)." % (number, place, named, len(plain)))
        facts += ["neg(%d,%d,%d)." % (number, place, code) for code in negated]
        facts += ["pos(%d,%d,%d,%d)." % (number, place, index, code) for index, code in enumerate(plain)]
    return facts


def set_facts(number, program, codes):
    facts = ["in(%d,%d)." % (number, code) for code in codes]
    return facts + ["history(%d)." % number] * (program.description is not None)


def law_facts(number, program):
    description = program.description
    facts = ["steps(%d,%d). fluents(%d,%d)." % (number, description.horizon, number, description.fluent_width)]
    for place, law in enumerate(description.laws):
        head = "none" if law.head is None else str(law.head)
        facts.append("law(%d,%d,%s,%s)." % (number, place, "dynamic" if law.dynamic else "static", head))
        facts += ["if(%d,%d,%d)." % (number, place, code) for code in law.if_list]
        facts += ["after(%d,%d,%d)." % (number, place, code) for code in law.after_list]
    return facts


def truth_facts(number, program, codes):
    return ["true(%d,%d,%d)." % (number, *divmod(code, program.description.width)) for code in codes]


def batches(pairs):
    """Runs of (program, set of codes) pairs, each of about as many rule parts as one call takes."""
    found, load = [[]], 0
    for pair in pairs:
        if load >= BATCH:
            found.append([])
            load = 0
        found[-1].append(pair)
        load += 1 + pair[0].atoms + len(pair[0].words())
    return found


def ask_batch(judging, batch, program_facts, case_facts, names):
    """What the one answer set of a judging program says of each case under each name: a word and its numbers."""
    facts, numbers = [], {}
    for case, (program, codes) in enumerate(batch):
        if id(program) not in numbers:
            numbers[id(program)] = len(numbers)
            facts += program_facts(numbers[id(program)], program)
        facts += ["case(%d,%d)." % (case, numbers[id(program)])] + case_facts(case, program, codes)
    found, _ = run(judging + "\n".join(facts) + "\n", ["--models=2"])
    if len(found) != 1 or len(found[0]) != len(names) * len(batch):
        raise RuntimeError("a judging program does not give one answer for each case")
    said = {}
    for name, _, rest in (atom.partition("(") for atom in found[0]):
        case, *words = rest[:-1].split(",")
        said[int(case), name] = " ".join(words)
    return [tuple(said[case, name] for name in names) for case in range(len(batch))]


def ask(judging, pairs, *asked):
    return [line for batch in batches(pairs) for line in ask_batch(judging, batch, *asked)]


def judge(pairs):
    """What is said of (program, set of codes) pairs, in order."""
    said = ask(VERDICT_PROGRAM, pairs, rule_facts, set_facts, ("verdict", "formulas", "former"))
    read = [place for place, (program, _) in enumerate(pairs)
            if program.description and said[place][1].split()[0] in ("holds", "fails")]
    causal = dict(zip(read, ask(CAUSAL_PROGRAM, [pairs[place] for place in read], law_facts, truth_facts, ("causal",))))
    return [Judged(*line, *causal.get(place, (None,))) for place, line in enumerate(said)]
