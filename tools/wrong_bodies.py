#!/usr/bin/env python3
"""wrong_bodies.py [--jobs N] [--named] [--by-turns] [--minutes M] [--share K/N] [--beside LOG] [--behind S]
[CRATE | CRATE/NAME]..: tries wrong bodies, those in must-fail/ and those in wrong/.

Each is an edit of code that the crate's contracts must refuse; one whose first line is `by: tests` is none that a
contract can refuse, and the crate's tests must fail instead, before any proof. Edits of different functions are applied to one copy of
their crate, and the functions that they change are checked over the proved libraries that `rt ci` has left. Where these
pass, their callers are checked, and then the whole crate, with one edit at a time. Prints a line for each: `refused`
with the function that is not proved or the test that fails, `not refused`, or `bad` where it cannot be applied or read, which is said of all,
chosen or not. The last line is 'N refused, M not refused, of K'; M counts all that were tried and not refused and all
that are bad, and 'L left' is said where time was over. The status is 1 unless M is 0.

Without a choice all are tried. Choices add up, and leave out what stands in must-fail/, which `rt ci` tries:
--named     those that docs/PROMISES.md names;
--by-turns  a tenth, chosen by the sum of all crates' files; and those of crates whose code or specs differ from the last
            tag, or where there is none from the commit before, up to the minutes;
--minutes M of the processor, behind which no more is begun of what has just changed (none is said: all of it);
--share K/N the K-th of N shares: N runs try all.
Proofs run side by side, one a processor where 3 GB are free for each.
--beside LOG runs beside an `rt ci` that writes this log: each is tried once what its crate stands on is proved, and two
at a time at most until the log ends, where there is memory for them too. If `rt ci` fails it stops.
--behind S   seconds by the clock after that log ends, after which only those that are named are begun. If the log is
            gone by then, none is."""
import hashlib, itertools, os, queue, re, resource, shutil, subprocess, sys, tempfile, threading, time

TOP = os.path.dirname(os.path.dirname(os.path.abspath(__file__)))
# The most edits in one copy: more save little, and fewer end sooner in parallel.
TOGETHER = 8
TURNS = 10
# The first line of an edit that tests refuse.
BY_TESTS = "by: tests\n"
# The most proofs that run during an `rt ci`, which leaves so many processors idle for half of its time.
BESIDE = 2


def kit():
    rt = shutil.which("rt")
    if rt is None:
        sys.exit("wrong_bodies.py: rt is not found")
    return os.path.dirname(os.path.dirname(os.path.realpath(rt)))


KIT = kit()


def crates():
    """Each crate with the words before the colon and the libraries that it stands on."""
    found = {}
    for line in open(f"{TOP}/crates.txt"):
        line = line.split("#")[0].strip()
        if ":" in line:
            head, deps = line.split(":", 1)
            name, *words = head.split()
            found[name] = (words, deps.split())
    return found


CRATES = crates()


# Edits.


class Edit:
    """A wrong body: its crate, its name, where it stands, and its pairs (file, old, new). `why` says what is bad."""

    def __init__(self, crate, path):
        self.crate, self.name, self.path = crate, f"{crate}/{os.path.basename(path)[:-5]}", path
        self.pairs, self.why, self.functions = pairs_of(path), None, []
        self.is_by_tests = open(path, encoding="utf-8").readline() == BY_TESTS
        if not self.pairs:
            self.why = "it cannot be read"
            return
        for file, old, _ in self.pairs:
            text = open(f"{TOP}/crates/{crate}/{file}", encoding="utf-8").read()
            if text.count(old) != 1:
                self.why = f"its text stands {text.count(old)} times in {file}"
                return
            constant = re.match(r"(?:pub(?:\([a-z]+\))? )?const (\w+):", old.strip())
            self.functions += citing(crate, constant.group(1)) if constant else [function_at(file, text, text.index(old))]
        # (an edit outside all functions has no name to check by: the whole crate is checked; tests run of the whole crate)
        self.functions = [] if None in self.functions or self.is_by_tests else sorted(set(self.functions))

    def apply(self, folder):
        """Changes the crate's copy; False where its text is not there once, since another edit changed it."""
        for file, old, new in self.pairs:
            text = open(f"{folder}/{file}", encoding="utf-8").read()
            if text.count(old) != 1:
                return False
            open(f"{folder}/{file}", "w", encoding="utf-8").write(text.replace(old, new))
        return True


def pairs_of(path):
    pairs, at, old = [], None, None
    for line in open(path, encoding="utf-8").read().split("\n"):
        if line.startswith("file: "):
            at = line[6:]
        elif line.startswith("old: "):
            old = line[5:]
        elif line.startswith("new: ") or line == "new:":
            pairs.append((at, old, line[5:]))
        elif line and line + "\n" != BY_TESTS:
            return None
    return pairs


def function_at(file, text, place):
    """The end of the name of the function around a place of a file's text: `Type::name`, `TypeTrait::name` of a trait's,
    or `module::name`. None where there is none around it, or where the type that a trait is written for has no name."""
    before = text[:place]
    heads = list(re.finditer(r"^[ ]*(?:pub(?:\([a-z]+\))? )?(?:unsafe )?(?:extern \"C\" )?fn (\w+)", before, re.M))
    if not heads:
        return None
    head = heads[-1]
    if head.group(0).startswith("    "):
        impls = list(re.finditer(r"^impl\b[^\n{]*", before[: head.start()], re.M))
        if not impls:
            return None
        kind = re.sub(r"<[^<>]*>", "", re.sub(r"<[^<>]*>", "", impls[-1].group(0))).split(" where ")[0]
        of_trait = re.search(r"([\w:]+) for (\w+)\s*$", kind.strip())
        if " for " in kind and not of_trait:
            return None
        name = of_trait.group(2) + of_trait.group(1).split("::")[-1] if of_trait else kind.split()[-1]
        return f"{name}::{head.group(1)}"
    module = file[: -len(".rt")].split("/")[-1]
    return head.group(1) if module in ("lib", "main") else f"{module}::{head.group(1)}"


def callers_of(crate, functions):
    """The functions of a crate whose text calls one of these by its last name."""
    return sorted(naming(crate, r"\b(?:" + "|".join(it.split("::")[-1] for it in functions) + r")\(") - {None} - set(functions))


def citing(crate, constant):
    """The functions of a crate that name a constant."""
    return sorted(naming(crate, rf"\b{constant}\b") - {None})


def naming(crate, pattern):
    """The functions of a crate in whose text a pattern is found; None among them where it stands in no function."""
    call, found = re.compile(pattern), set()
    for folder, _, files in os.walk(f"{TOP}/crates/{crate}/src"):
        for name in files:
            file = f"{folder}/{name}"
            text = open(file, encoding="utf-8").read() if name.endswith(".rt") else ""
            found |= {function_at(file, text, it.start()) for it in call.finditer(text)}
    return found


# Libraries.


def below(name):
    """The crates of the repository on which a crate stands, over whatever others."""
    found, left = [], [name]
    while left:
        new = [it for it in CRATES[left.pop()][1] if it in CRATES and it not in found]
        found, left = found + new, left + new
    return found


class Libraries:
    """The proved libraries that `rt ci` has left."""

    def folder(self, name):
        return f"{TOP}/crates/{name}/out/rlib"

    def are_ready(self, crate):
        """Whether all on which a crate stands is proved."""
        return True

    def are_growing(self):
        """Whether more are being proved."""
        return False

    def seconds_over(self):
        """For how long none has been proved any more; None while that is not known."""
        return None

    def are_gone(self):
        """Whether whoever proves them has given up."""
        return False


class GrowingLibraries(Libraries):
    """Those that an `rt ci` makes, as its log says. Links keep them, since that run puts back at its end what stood in
    their place before it. What it had kept of an earlier run is there at its end."""

    def __init__(self, log, kept):
        self.log, self.kept, self.proved, self.is_over, self.lock = log, kept, set(), False, threading.Lock()
        self.over_at = None

    def look(self):
        try:
            said = open(self.log, encoding="utf-8", errors="replace").read()
        except OSError:
            said = "0 passed, 1 failed\n"
        for name in sorted(set(re.findall(r"^rt: (\w+) (?:proved$|is kept: )", said, re.M)) - self.proved):
            if os.path.isdir(super().folder(name)):
                shutil.copytree(super().folder(name), f"{self.kept}/{name}", copy_function=os.link)
            self.proved.add(name)
        ended = re.search(r"^\d+ passed, (\d+) failed$", said, re.M)
        self.is_over = bool(ended)
        if ended and ended.group(1) != "0":
            raise RuntimeError("rt ci failed")
        if ended:
            self.over_at = time.monotonic()

    def folder(self, name):
        kept = f"{self.kept}/{name}"
        return kept if os.path.isdir(kept) else super().folder(name)

    def are_ready(self, crate):
        with self.lock:
            return self.is_over or self.proved.issuperset(below(crate))

    def are_growing(self):
        with self.lock:
            if not self.is_over:
                self.look()
            return not self.is_over


    def seconds_over(self):
        return None if self.over_at is None else time.monotonic() - self.over_at

    def are_gone(self):
        return self.over_at is not None and not os.path.exists(self.log)


LIBRARIES = Libraries()


# Proofs.


def words_of(name, folder):
    options, deps = CRATES[name]
    root = "src/main.rt" if os.path.exists(f"{folder}/src/main.rt") else "src/lib.rt"
    words = ["--crate-name", name, root]
    for dep in ["std"] + [it for it in deps if it not in CRATES]:
        words += ["--extern", f"{dep}={KIT}/rlibs/{dep}.rlib"]
    words += ["-L", f"dependency={KIT}/rlibs"]
    for dep in [it for it in deps if it in CRATES]:
        words += ["--extern", f"{dep}={LIBRARIES.folder(dep)}/{dep}.rlib"]
    for dep in below(name):
        words += ["-L", f"dependency={LIBRARIES.folder(dep)}"]
    words += ["--antt-project", f"{KIT}/rattle/logic/antt-project.json", "--logic-built", f"{KIT}/logic_built"]
    words += ["--links", f"{name}=", "--jobs", "1"]
    return words + (["--crate-type", "staticlib"] if "staticlib" in options else [])


def verdicts(crate, folder, functions):
    """Whether each function of the crate's copy is proved, of these or of all, and whether it is only not because one that
    it calls is not; and the last of what was said."""
    words = [f"{KIT}/bin/rattle", "check", *words_of(crate, folder)]
    for path in functions:
        words += ["--only", path]
    ran = subprocess.run(words, cwd=folder, capture_output=True, errors="replace", text=True)
    said = ran.stdout + ran.stderr
    broken = re.search(r"^\S+\.rt:\d+:\d+: error\[.*", said, re.M)
    last = broken.group(0) if broken else (said.strip().splitlines() or ["nothing said"])[-1][:200]
    lines = [] if broken else re.findall(r"^fn (\S+): (proved|not proved|no proof)(?:: (it calls) `)?", said, re.M)
    return [(name, what == "proved", bool(calls)) for name, what, calls in lines], last


def in_copy(edits, work):
    """What work says of a copy of the edits' crate with all of them; None where they do not stand beside each other."""
    crate = edits[0].crate
    with tempfile.TemporaryDirectory() as scratch:
        folder = f"{scratch}/{crate}"
        shutil.copytree(f"{TOP}/crates/{crate}", folder, ignore=shutil.ignore_patterns("out", "must-fail", "wrong"))
        return work(folder) if all(it.apply(folder) for it in edits) else None


def attempt_by_tests(edit):
    """What becomes of one wrong body that the crate's tests must refuse, in a repository of that crate and those below."""
    names = below(edit.crate) + [edit.crate]
    with tempfile.TemporaryDirectory() as top:
        shutil.copy(f"{TOP}/HANDLES", top)
        lines = [it for it in open(f"{TOP}/crates.txt", encoding="utf-8") if re.match(r"\w*", it).group(0) in names]
        open(f"{top}/crates.txt", "w", encoding="utf-8").writelines(lines)
        for name in names:
            shutil.copytree(f"{TOP}/crates/{name}", f"{top}/crates/{name}", ignore=shutil.ignore_patterns("out", "must-fail", "wrong"))
        folder = f"{top}/crates/{edit.crate}"
        edit.apply(folder)
        ran = subprocess.run(["rt", "try", "--test"], cwd=folder, capture_output=True, errors="replace", text=True)
    failed = re.search(r"^test (\S+) \.\.\. FAILED", ran.stdout, re.M)
    if failed:
        return "refused", failed.group(1)
    passed = re.search(r"^test result: ok\. (\d+) passed", ran.stdout, re.M)
    return ("not refused", f"{passed.group(1)} tests") if passed else ("bad", "its tests did not run")


def attempt(edit):
    """What becomes of one wrong body."""
    if edit.is_by_tests:
        return attempt_by_tests(edit)

    def by_steps(folder):
        callers = callers_of(edit.crate, edit.functions) if edit.functions else []
        for functions in [edit.functions, callers, []] if edit.functions else [[]]:
            said, last = verdicts(edit.crate, folder, functions)
            # (a name that the prover does not know is no function's: then the whole crate is checked)
            if not said and not functions:
                return "bad", f"no verdict on {', '.join(functions) or 'the crate'}: {last}"
            refused = next((name for name, is_proved, _ in said if not is_proved), None)
            if refused:
                return "refused", refused
        return "not refused", ", ".join(edit.functions)

    return in_copy([edit], by_steps)


def attempt_all(edits):
    """What becomes of wrong bodies of one crate that change different functions: together where each is refused so, and
    alone where a function may lack its proof because of another's edit."""

    def at_once(folder):
        said, _ = verdicts(edits[0].crate, folder, sorted(path for it in edits for path in it.functions))
        found = {}
        for it in edits:
            changes = lambda name, it=it: any(f"::{name}".endswith(f"::{end}") for end in it.functions)
            lacks = [name for name, is_proved, by_callee in said if not (is_proved or by_callee) and changes(name)]
            if lacks:
                found[it] = "refused", lacks[0]
        return found

    found = (in_copy(edits, at_once) or {}) if len(edits) > 1 else {}
    return [(it, *(found[it] if it in found else attempt(it))) for it in edits]


def grouped(edits):
    """The edits in groups of one crate whose functions differ."""
    groups = []
    for edit in edits:
        fits = lambda group: group[0].crate == edit.crate and len(group) < TOGETHER and group[0].functions and all(
            not set(it.functions) & set(edit.functions) for it in group)
        group = next((it for it in groups if edit.functions and fits(it)), None)
        group.append(edit) if group else groups.append([edit])
    return groups


# Choices.


def every_edit():
    for crate in CRATES:
        for kind in ("must-fail", "wrong"):
            folder = f"{TOP}/crates/{crate}/{kind}"
            for file in sorted(os.listdir(folder)) if os.path.isdir(folder) else []:
                if file.endswith(".edit"):
                    yield Edit(crate, f"{folder}/{file}")


def named():
    """The edits that docs/PROMISES.md names: `crate/name`, and `name` behind one of the same crate."""
    found = []
    for line in open(f"{TOP}/docs/PROMISES.md", encoding="utf-8"):
        for part in re.findall(r"edits? ((?:`[\w/]+`(?:, )?)+)", line):
            crate = None
            for word in re.findall(r"`([\w/]+)`", part):
                crate, _, name = word.rpartition("/") if "/" in word else (crate, "", word)
                found.append(f"{crate}/{name}")
    return found


def sum_of(words):
    sum = hashlib.sha256()
    for it in words:
        sum.update(it)
    return int(sum.hexdigest(), 16)


def tree():
    """The sum of all crates' files, out/ aside."""
    files = [f"{at}/{name}" for at, _, names in os.walk(f"{TOP}/crates") if "/out/" not in f"{at}/" for name in names]
    return sum_of(word for it in sorted(files) for word in (os.path.relpath(it, TOP).encode(), open(it, "rb").read()))


def changed():
    """The crates whose code or specs differ from the last tag, or else from the commit before."""
    git = lambda *words: subprocess.run(["git", "-C", TOP, *words], capture_output=True, text=True).stdout
    tag = git("describe", "--tags", "--abbrev=0").strip()
    files = git("diff", "--name-only", tag or "HEAD~1", "--", "crates").split("\n")
    return {it.split("/")[1] for it in files if it.count("/") > 2 and it.split("/")[2] in ("src", "specs")}


def is_in_share(edit, turn, turns):
    return sum_of([edit.name.encode()]) % turns == turn % turns


def chosen(every, words):
    """The edits that the words ask for in any case, those that are asked for by turns, and those that are asked for since
    their crates have just changed."""
    wants, turns_wanted, anew, is_gates = [], None, set(), False
    while words:
        word = words.pop(0)
        if word == "--named":
            names, is_gates = set(named()), True
            gone = names - {it.name for it in every}
            if gone:
                sys.exit(f"wrong_bodies.py: docs/PROMISES.md names {', '.join(sorted(gone))}, which are not there")
            wants.append(lambda it, names=names: it.name in names)
        elif word == "--by-turns":
            turn, anew, is_gates = tree() % TURNS, changed(), True
            print(f"wrong_bodies.py: turn {turn} of {TURNS}; changed: {', '.join(sorted(anew)) or 'none'}", flush=True)
            turns_wanted = lambda it, turn=turn: is_in_share(it, turn, TURNS)
        elif word == "--share":
            turn, turns = (int(it) for it in words.pop(0).split("/"))
            wants.append(lambda it, turn=turn, turns=turns: is_in_share(it, turn, turns))
        elif word.startswith("-") or word.split("/")[0] not in CRATES:
            sys.exit(__doc__)
        else:
            wants.append(lambda it, word=word: word in (it.crate, it.name))
    others = [it for it in every if not (is_gates and "/must-fail/" in it.path)]
    is_all = not wants and not turns_wanted
    asked = [it for it in others if is_all or any(want(it) for want in wants)]
    by_turns = [it for it in others if turns_wanted and turns_wanted(it) and it not in asked]
    return asked, by_turns, [it for it in others if it.crate in anew and it not in asked and it not in by_turns]


def jobs():
    said = subprocess.run([f"{TOP}/tools/library.sh", "proof_jobs"], stdout=subprocess.PIPE, text=True).stdout.strip()
    return int(said) if said else 1


def spare():
    """How many proofs have memory beside one a processor."""
    free = int(re.search(r"^MemAvailable: *(\d+)", open("/proc/meminfo", encoding="utf-8").read(), re.M).group(1)) // 1024
    return max(free // 3072 - os.cpu_count(), 0)


def word_behind(word, words):
    """The word behind another, which are taken out; None where that is not there."""
    if word not in words:
        return None
    at = words.index(word)
    found = words[at + 1]
    del words[at : at + 2]
    return found


def number_behind(word, words):
    """The same as a number."""
    found = word_behind(word, words)
    return None if found is None else int(found)


def minutes_spent():
    """The processor minutes of all proofs that have ended."""
    used = resource.getrusage(resource.RUSAGE_CHILDREN)
    return (used.ru_utime + used.ru_stime) / 60


def worked(tasks, workers, few):
    """What each task gives, as it ends. A task is a crate and a call; it begins once what its crate stands on is there.
    While libraries are still made few of the workers work."""
    ended, left, lock, count = queue.Queue(), list(tasks), threading.Lock(), len(tasks)

    def next_task():
        task = next((it for it in left if LIBRARIES.are_ready(it[0])), None)
        if task:
            left.remove(task)
        return task

    def work(place):
        while left:
            is_growing = LIBRARIES.are_growing()
            with lock:
                task = next_task() if place < few or not is_growing else None
            if task:
                ended.put(task[1]())
            elif left and not is_growing:
                raise RuntimeError(f"no proved libraries for {left[0][0]}")
            elif left:
                time.sleep(2)

    def work_or_tell(place):
        try:
            work(place)
        except Exception as error:
            ended.put(error)

    for place in range(workers):
        threading.Thread(target=work_or_tell, args=(place,), daemon=True).start()
    for _ in range(count):
        result = ended.get()
        if isinstance(result, Exception):
            raise result
        yield result


def try_all(asked, by_turns, anew, bad, workers, minutes, behind):
    """Tries the edits, prints what becomes of each, and answers how many were refused, were not, and were left."""
    counts = {"refused": 0, "lacking": 0, "left": 0}

    def unless(is_late, group):
        return [(it, "left", "") for it in group] if is_late or LIBRARIES.are_gone() else attempt_all(group)

    def is_behind():
        seconds = LIBRARIES.seconds_over()
        return behind is not None and seconds is not None and seconds >= behind

    def is_late():
        return is_behind() or minutes is not None and minutes_spent() >= minutes

    tasks = [(it[0].crate, lambda it=it: unless(False, it)) for it in grouped(asked)]
    tasks += [(it[0].crate, lambda it=it: unless(is_behind(), it)) for it in grouped(by_turns)]
    tasks += [(it[0].crate, lambda it=it: unless(is_late(), it)) for it in grouped(anew)]
    for edit, what, why in itertools.chain(bad, itertools.chain.from_iterable(worked(tasks, workers, min(BESIDE, spare())))):
        counts[what if what in ("refused", "left") else "lacking"] += 1
        if what != "left":
            print(f"{what} {edit.name}: {why}", flush=True)
    return counts


def main(words):
    global LIBRARIES
    at_once, minutes, log = number_behind("--jobs", words), number_behind("--minutes", words), word_behind("--beside", words)
    behind = number_behind("--behind", words)
    every = list(every_edit())
    asked, by_turns, anew = ([it for it in some if not it.why] for some in chosen(every, words))
    bad = [(it, "bad", it.why) for it in every if it.why]
    # (where links can be made to the libraries, and no check looks)
    with tempfile.TemporaryDirectory(dir=f"{TOP}/.git") as kept:
        LIBRARIES = GrowingLibraries(log, kept) if log else LIBRARIES
        try:
            counts = try_all(asked, by_turns, anew, bad, at_once or jobs(), minutes, behind)
        except RuntimeError as error:
            sys.exit(f"wrong_bodies.py: {error}")
    left = f"; {counts['left']} left" if counts["left"] else ""
    print(f"{counts['refused']} refused, {counts['lacking']} not refused, of {len(every)}{left}")
    return 0 if counts["lacking"] == 0 else 1


sys.exit(main(sys.argv[1:]))
