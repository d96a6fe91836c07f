#!/usr/bin/env python3
"""The two pages of definitions, docs/DEFINITIONS.md and docs/LAYERS.md, from the comments in the specs.

    definitions.py            writes the pages
    definitions.py --check    fails where a page is not what the specs give
    definitions.py --order    names the definitions of the first page that stand before a word that they use

Each definition has a comment of one sentence above it, and each file one in its first line; the pages have these
sentences, in the order in which one reads the files. The first page has the definitions on which the clauses of the
top call rest, as tools/rests_on.py finds them; the second has all others.
"""
import os
import re
import sys

import rests_on

TOP = rests_on.TOP
FIRST = os.path.join(TOP, "docs", "DEFINITIONS.md")
SECOND = os.path.join(TOP, "docs", "LAYERS.md")

FIRST_HEAD = """# Definitions: the words of the headline

What the program means is written down in definitions, apart from its code: sets, relations and recursions on plain lists, which know no index, no budget and no thread. This page lists those on which the clauses of the top call rest: what `graphd` in `gd_top` promises, from the bytes read to the bytes written, says what it says by these and by no others but the words of std. Whoever wants to know what the promises of [PROMISES.md](PROMISES.md) mean reads them; the words that the layers below speak in besides, each to the one above it, stand on a second page, [LAYERS.md](LAYERS.md).

Each definition has one sentence, crate by crate and file by file, in the order in which one reads them. The sentences are the comments that stand above the definitions; `tools/definitions.py` collects them, and `tools/rests_on.py` tells which clauses rest on which. Of a file whose words do not all stand here the others stand on the second page.

Some words run through all of them.

- A **primitive** is one record of the store: references to a left, a right, a typ, a scope, a previous one and the language of its text, a value, a name, and whether it is live. The store is one list of primitives, to which batches are appended.
- A **place** is the position of a primitive in that list, counted from 0; it is the identity of what stands there. A **guid** is its text.
- An **object** is a live primitive without a typ. A **link** is a primitive with a typ: it leads from its left to its right, or has a value. A **key link** gives an object a key in a namespace.
- A **batch** is what one write appends. A **dateline** is a number of batches: the state of the store after the first so many. A **snapshot** is the dateline at which a read is answered.
- A **member** is a name with a value in a JSON object; a **clause** is an object of members that a query asks of something; the **root** is the clause outside.
- Texts are lists of bytes throughout.

What the clauses name of a source (`left`, `given`, `faults`), a sink (`held`, `sent`, `faults`), a shelf (`content`, `images`, `faults`, `is_out`) and a clock (`may`) is what these objects tell of themselves; the traits say it, in `gd_outside/src` and `gd_disk/src`. `x.now`, and `x.old` with `x.new`, is what a contract sees of an object of the code.

A name in `code` is that of the definition. Behind a type stand the cases or the parts that it has.
"""

SECOND_HEAD = """# Definitions: the words of the layers

What the crates promise to those above them is said in the words of [DEFINITIONS.md](DEFINITIONS.md) and in these: what a layer finds on the way to an answer, how a reading goes on from slice to slice, how much work it takes, and in what shape laws speak of it. No clause of the top call rests on them; the contracts between the layers speak in them, and laws do. Words that a crate needs for itself alone, such as those of its readers and searches, stand in its own `specs/` and on neither page.

The page is made as the first one is, and in the same order. Of a file that the first page begins this one has the rest.
"""

# the crates in the order in which one reads them, what each is about, and its files; of a crate that is listed
# with True the other files follow, and of one with None only what the clauses of the top call rest on
CRATES = [
    ("gd_grammar", "Words for grammars of texts, which know nothing of the store.", ["Chain", "Maybe", "Grammar", "Reading", "Options", "Mark"], True),
    ("gd_utf8", "UTF-8 as an automaton over bytes, as readers of groups, dumps and templates have it.", ["Utf8"], False),
    ("gd_tree", "Trees: JSON values as every request and reply has them, and trees of places.",
     ["Hex", "Json", "Look", "Bounds", "JsonCode", "Trees"], True),
    ("gd_base", "The order of data, and counts.", ["Order", "Counts"], False),
    ("gd_postings", "Posting lists.", ["Postings"], False),
    ("gd_versions", "The successor of each place.", ["Versions"], False),
    ("gd_lists", "Lists of identities under keys.", ["Entries"], False),
    ("gd_keys", "The lists of key links.", ["Keys"], False),
    ("gd_prim", "Primitives: the built-in ones, which of them are live, and which batches may follow.",
     ["Builtin", "Live", "Keys", "End", "History", "Limits", "WellFormed"], False),
    ("gd_linkage", "The places of primitives by the nodes that they name.", ["Linkage"], False),
    ("gd_valueidx", "Values by number, the places of each, and the values between two.", ["Values", "Ranked"], False),
    ("gd_store", "What views say of values.", ["Valued"], False),
    ("gd_defs", "The meaning of queries and writes over a list of primitives.",
     ["History", "Ids", "Moment", "Pattern", "Data", "Property",
      "Query/Names", "Query/Operands", "Query/Directive", "Query/Faults", "Query",
      "Asked/Tests", "Asked/Parts", "Asked/Forms", "Asked", "Rows", "Lines", "Reply",
      "Change", "Write/Parts", "Write/Links", "Write/Carried", "Write",
      "Template", "Plan", "Cost"], True),
    ("gd_json", "The JSON that bytes are.", ["Reading", "View"], None),
    ("gd_bytes", "Bytes: texts of cursors and of frozen readings, groups of batches, files, and what a disk leaves.",
     ["Cursor", "Group", "File", "Disk", "Frozen", "FrozenRead"], True),
    ("gd_journal", "The file of a journal: which payloads it stands for, and what a journal is between two calls.",
     ["Meaning", "Shape", "State"], False),
    ("gd_runs", "Runs: lines and their replies, histories that explain them, suspended readings and how much work they take.",
     ["Request", "Input", "Legal", "Explained/Lines", "Explained/Outcomes", "Explained/Runs", "Explained/Rounds", "Explained",
      "RootSets", "Work", "Owed", "Scanned", "Shape/Answers", "Shape/Ids", "Shape", "Thawed", "Fitting",
      "Core", "Replay", "Pace", "Side"], True),
    ("gd_thaw_laws", "How many members an iterator has.", ["Spelled"], None),
    ("gd_cache", "Replies that a session keeps: the key of each, whether it is right, and which reads find theirs.",
     ["Asked", "Line", "Right", "Hits", "Shown"], None),
    ("gd_lookup", "What all sessions of a run keep, and what it counts.", ["Keeping", "Calls", "Laws"], None),
    ("gd_input", "What was taken of an input, and which of its rounds that is.", ["Taken"], False),
    ("gd_paging_laws", "Pages of a query that were read one after another.", ["Told", "Paged", "Explained"], False),
    ("gd_shared", "Published copies: what contracts see of a publisher and of seats.", ["Shared"], False),
    ("gd_log", "A log: payloads that are groups of batches, and what its disk holds.", ["Groups", "State", "Stored"], None),
    ("gd_words", "The command line: which words give which command, and which verb and file it names.", ["Options", "Words", "Verbs"], False),
    ("gd_writer", "What a disk tells.", ["Parts"], None),
    ("gd_sessions", "What stands for a state of the core.", ["Running"], None),
    ("gd_core_laws", "Lines that are served through the core, one after another on one thread, and rounds of them on threads.", ["Serve", "Round", "Threads"], False),
    ("gd_round_lines", "Lines of a round: from where on a history has none, their replies, and what they are once read.", ["Fresh", "Replies", "Works"], False),
    ("gd_caller", "What a round prints, and what its writes leave of the count of faults.", ["Served", "Writes"], False),
    ("gd_threads", "What contracts see of a run that is served on threads, and what a round comes to.", ["Served", "Rounds"], False),
    ("gd_round_laws", "Whole rounds, one after another.", ["Rounds"], False),
    ("gd_replay_laws", "Runs of events, over a file that is told or not.", ["Steps", "Runs", "Paced", "Faults"], False),
    ("gd_replay", "What a run of events prints and leaves, and why it stops.", ["Sure", "Replays", "Runs", "Stops", "Kept"], False),
    ("gd_trees", "Words that the clauses of the verbs need.", ["Answers"], None),
    ("gd_dump_laws", "Dumps: the text of a list of batches, and what dumping and restoring come to.", ["Dump", "Dumping", "Restoring"], False),
    ("gd_follow_laws", "Nodes that follow: what comes of a group, and the world in which they follow a primary.", ["Given", "World"], False),
    ("gd_answering", "Lines that are answered one after another.", ["Answering"], False),
    ("gd_follow", "What a node answers to an ask, and what a stop leaves of it.", ["Asks", "Node"], None),
    ("gd_following", "The lines of a node, and what it prints for them.", ["Parts", "Lines", "Replies", "Follows", "Runs"], False),
    ("gd_tplang", "Templates as texts, and what a line of one is answered.", ["Written", "Meaning", "Printed", "Choice"], False),
    ("gd_patterns", "Lines of templates, answered over one list.", ["Patterns"], False),
    ("gd_outside", "A sink that fails on the way.", ["Gains"], False),
    ("gd_gen", "Generated requests: the lines of a number and a count, and the line to which an output comes.", ["Draws", "Lines", "Replies", "Summary"], False),
    ("gd_top", "The top call: which words it takes, what it finds in a file and leaves there, what it prints for its input, and how it ends.", ["Words", "Ends", "Held", "Kept", "Serves", "Counted", "Replays", "Dumps", "Restores", "Follows", "Answers", "Generates"], False),
]

# comments that lean on the definition above them, said in full
SENTENCES = {
    "gd_base/Order": {
        "variant": "the place of the kind of a datum in the order of kinds: truth values, numbers, moments, texts, objects, nothing",
        "precision_index": "the place of a precision in their order: year, month, day, time",
        "contents_cmp": "the order of two data of one kind: texts by their bytes, moments by their number and then by precision",
    },
    "gd_cache/Right": {
        "IsPlainCursor": "a cursor, where there is one, has no comma as it prints",
        "IsPlainKept": "the cursor of what is kept, where there is one, has no comma as it prints",
    },
    "gd_prim/Builtin": {
        "object": "an object: a primitive without typ",
        "key_link": "a link that gives an object a key in a namespace",
        "link": "a link of a type from one object to another",
        "name_link": "a link that gives an object a name",
        "objects": "the built-in objects, at the places 0 to 18",
        "keys": "the keys of the built-in objects, each with its namespace",
        "types": "the types of the built-in objects",
        "expected_types": "the expected types of the built-in properties",
        "unique_properties": "the built-in properties that are unique",
        "names": "the names of the built-in objects that have one",
        "builtin": "the 70 built-in primitives: objects, their keys, their types, expected types, marks of uniqueness, names",
    },
    "gd_prim/Live": {
        "refers": "a reference is there and names this place",
        "is_current": "a place is current: no primitive has it as its previous one",
        "passes_at": "there is a primitive at a place, and it passes a test",
        "is_live": "a place is live: its primitive is current and marked live",
        "is_object": "there is an object at a place: a live primitive without typ",
        "successor": "the primitive that has a place as its previous one, if there is one",
        "places_where": "the places whose primitive passes a test, in rising order",
        "live_where": "the live places whose primitive passes a test, in rising order",
        "objects": "the places of the objects, in rising order",
        "object_datum": "an object as a datum, Empty where there is none",
        "is_text": "a value is this text",
    },
    "gd_prim/History": {
        "prims_at": "the primitives at a dateline: the built-in ones and those of the first so many batches, as one list",
    },
    "gd_prim/Limits": {
        "max_prims": "the greatest number of primitives in a store",
        "max_batch": "the greatest number of primitives in a batch",
        "max_text": "the greatest number of bytes of all texts in a store",
        "max_requests": "the greatest number of requests that a store has taken",
        "text_bytes": "the bytes of the value and the name of a primitive that are texts",
        "Count": "what is counted, the number that would be reached, and the greatest number",
        "limits": "the counts that a batch would make of a store and so many requests, in the order in which they are tested",
        "first_full": "the first limit that counts pass, and the number that would be reached",
    },
    "gd_prim/WellFormed": {
        "max_moment": "the last moment of the year 9999, at which a clock's numbers are cut off",
        "refers_below": "a reference, if there is one, names a place below this one",
        "succeeds_current": "a previous primitive, if there is one, is current among those before",
        "is_moment": "a number of milliseconds is a moment: from the first one of the year 0000 to the last one of 9999",
        "is_number": "a whole number has 64 bits",
        "may_hold": "a primitive may hold this value: nothing, a truth value, a text, a whole number of 64 bits, or a moment",
        "refers_back": "each reference of a primitive names a place below this one",
        "is_well_placed": "a primitive may stand at the end of a list, as the i-th of a batch of this moment",
        "first_bad": "the first place at which a primitive of a batch breaks a rule, the rest of which is given",
        "bad_place": "the first place at which a primitive of a batch breaks a rule behind a list",
        "may_follow": "a batch is well formed behind a list, and passes no limit after so many requests",
        "all_follow": "each of some batches may follow those before it",
    },
}

DEFINITION = re.compile(r"( *)(?:abbrev |unfoldable )?pub (data |record )?([^\s:(]+|◌>>=◌)[ :(]")


def code(names):
    """Names as code."""
    return ", ".join("`%s`" % name.replace("◌", "") for name in names)


def sentence(comment):
    """A comment as a sentence."""
    comment = re.sub(r"◌", "", comment)
    if comment[0].isalpha():
        comment = comment[0].upper() + comment[1:]
    return comment if comment[-1] in ".!?" else comment + "."


def definitions_of(path, strict):
    """The header comment of a file, and its definitions: the names, the parts, the comment. A definition without a
    comment shares that of the one before it, but a strict file has one for each."""
    with open(path, encoding="utf-8") as file:
        lines = file.read().split("\n")
    header = []
    for line in lines:
        if not line.startswith("-- "):
            break
        header.append(line[3:])
    found, in_record = [], None
    for number, line in enumerate(lines):
        if line.strip() and in_record is not None and len(line) - len(line.lstrip()) <= in_record:
            in_record = None
        match = DEFINITION.match(line)
        if not match or line.startswith(("pub use", "pub mod")) or in_record is not None:
            continue
        indent, kind, name = len(match.group(1)), match.group(2), match.group(3)
        above = number - 1
        while above >= 0 and lines[above].strip().startswith("infix"):
            above -= 1
        comment = lines[above].strip()
        if not comment.startswith("-- ") and found and not strict:
            found[-1][0].append(name)
            continue
        if not comment.startswith("-- "):
            sys.exit("definitions.py: %s:%d: `%s` has no comment" % (os.path.relpath(path, TOP), number + 1, name))
        found.append(([name], rests_on.parts_of(lines, number, indent) if kind else [], comment[3:]))
        if kind:
            in_record = indent
    return " ".join(header), found


def files_of(crate, order, whole):
    """The spec files of a crate, in order."""
    specs = os.path.join(TOP, "crates", crate, "specs")
    there = sorted(os.path.relpath(os.path.join(folder, name), specs)[:-5]
                   for folder, _, names in os.walk(specs) for name in names if name.endswith(".antt"))
    there.remove("Lib")
    listed = [name for name in order if name in there]
    return [(name, bool(whole)) for name in listed] + ([(name, False) for name in there if name not in listed] if whole else [])


def path_of(crate, name):
    """A spec file."""
    return os.path.join(rests_on.CRATES, crate, "specs", name + ".antt")


def needs(path, names):
    """Whether the clauses of the top call rest on one of these definitions of a file."""
    return any((path, name) in rests_on.words() for name in names)


def sections():
    """The crates, each with its files: the name, the header comment and the definitions."""
    for crate, about, order, whole in CRATES:
        files = []
        for name, strict in files_of(crate, order, whole):
            header, found = definitions_of(path_of(crate, name), strict)
            if whole is None:
                found = [entry for entry in found if needs(path_of(crate, name), entry[0])]
            said = SENTENCES.get(crate + "/" + name, {})
            for stale in set(said) - {names[0] for names, _, _ in found}:
                sys.exit("definitions.py: %s/%s has no definition `%s`" % (crate, name, stale))
            files.append((name, header, [(names, parts, said.get(names[0], comment)) for names, parts, comment in found]))
        yield crate, about, files


def page(head, keeps):
    """A page: of the definitions those that it keeps."""
    out = [head]
    for crate, about, files in sections():
        shown = [(name, header, [found for found in all_found if keeps(path_of(crate, name), found[0])])
                 for name, header, all_found in files]
        if not any(found for _, _, found in shown):
            continue
        out.append("## %s\n\n%s\n" % (crate, about))
        for name, header, found in shown:
            if not found:
                continue
            out.append("### %s\n\n%s\n" % (name.replace("/", "."), sentence(header)))
            for names, parts, comment in found:
                with_parts = " (%s)" % code(parts) if parts else ""
                out.append("- %s%s: %s" % (code(names), with_parts, sentence(comment)))
            out.append("")
    return "\n".join(out).rstrip() + "\n"


def pages():
    """Both pages."""
    words = rests_on.words()
    listed = {(path_of(crate, name), word) for crate, _, files in sections()
              for name, _, all_found in files for names, _, _ in all_found for word in names}
    for file, word in sorted(words - listed):
        if re.search(r"\bpub (data |record )?%s " % re.escape(word), rests_on.text_of(file)):
            sys.exit("definitions.py: the clauses of the top call rest on `%s` of %s, which no page lists"
                     % (word, os.path.relpath(file, TOP)))

    return {FIRST: page(FIRST_HEAD, needs), SECOND: page(SECOND_HEAD, lambda path, names: not needs(path, names))}


def print_order():
    """Names the definitions of the first page that use a word of a later file."""
    words = rests_on.words()
    files = [path_of(crate, name) for crate, _, files in sections() for name, _, _ in files]
    place = {file: number for number, file in enumerate(files)}
    for file, name in sorted(words, key=lambda word: (place.get(word[0], -1), word[1])):
        specs = rests_on.specs(file)
        for other, word in sorted(specs.found_in("\n".join(specs.bodies[name]))):
            if place.get(other, -1) > place.get(file, -1):
                print("%s %s: %s %s" % (os.path.relpath(file, rests_on.CRATES), name,
                                        os.path.relpath(other, rests_on.CRATES), word))


def main():
    """Writes or checks the pages."""
    if sys.argv[1:] == ["--help"]:
        print(__doc__.strip())
        return 0
    if sys.argv[1:] == ["--order"]:
        print_order()
        return 0
    if sys.argv[1:] not in ([], ["--check"]):
        print("definitions.py: no such words; definitions.py --help shows them", file=sys.stderr)
        return 2
    stale = 0
    for path, text in pages().items():
        if not sys.argv[1:]:
            with open(path, "w", encoding="utf-8") as file:
                file.write(text)
            continue
        there = rests_on.text_of(path) if os.path.exists(path) else ""
        if there != text:
            print("%s is not what the specs give" % os.path.relpath(path, TOP))
            stale = 1
    return stale


if __name__ == "__main__":
    sys.exit(main())
