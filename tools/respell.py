#!/usr/bin/env python3
"""Respells definitions, fields and lemmas of this repository as the library spells its own: words in snake case,
facts and types in camel case. A lemma's name is words joined by dashes, and stays so. Each name is listed with its
new spelling, and is replaced only as a whole word: in specs/ and proofs/, and in the ghost text of the sources,
where no name of the code is spelled so.

usage: python3 tools/respell.py    at the top of the repository
"""

import os
import re
import sys

NAMES = {
    "None-is": "NoneIs",
    "andThen-both": "and_then-both",
    "andThen-inv": "and_then-inv",
    "anyWord": "any_word",
    "apart-onceAll": "apart-once_all",
    "apart-orderAll": "apart-order_all",
    "atDeclaration": "at_declaration",
    "atRoles": "at_roles",
    "atRoles-declares": "at_roles-declares",
    "atRoles-plain": "at_roles-plain",
    "atRoles-uses": "at_roles-uses",
    "atRolesFreely": "at_roles_freely",
    "atUse": "at_use",
    "bareV": "bare_v",
    "bareW": "bare_w",
    "blanks-after": "blanks_after",
    "blanks-before": "blanks_before",
    "blockInBlock": "block_in_block",
    "childOf": "child_of",
    "childrenOf": "children_of",
    "classIn": "class_in",
    "cleanAll": "clean_all",
    "cleanAll-cons": "clean_all-cons",
    "compareNumber": "compare_number",
    "constantCall": "constant_call",
    "countedLines": "counted_lines",
    "decideAll": "decide_all",
    "decideAll-cons": "decide_all-cons",
    "decideAll-freely": "decide_all-freely",
    "decideAll-nil": "decide_all-nil",
    "decideAll-over": "decide_all-over",
    "decideAll-pair": "decide_all-pair",
    "decideAll-run": "decide_all-run",
    "decideAll-short": "decide_all-short",
    "decideAllFreely": "decide_all_freely",
    "decideFreely": "decide_freely",
    "declaredIn": "declared_in",
    "declaredIn-++": "declared_in-++",
    "declsAll": "decls_all",
    "directTest": "direct_test",
    "done-room": "done_room",
    "faultOf": "fault_of",
    "fedAll": "fed_all",
    "fedV": "fed_v",
    "feedAll": "feed_all",
    "feedAll-cons": "feed_all-cons",
    "feedAll-nil": "feed_all-nil",
    "feedAll-pair": "feed_all-pair",
    "first-tree": "first_tree",
    "fnv1aByte": "fnv1a_byte",
    "fnv1aFrom": "fnv1a_from",
    "fnv1aOf": "fnv1a_of",
    "fnv1aStart": "fnv1a_start",
    "fnv1aWord": "fnv1a_word",
    "fourWords": "four_words",
    "freeAndDeclared": "free_and_declared",
    "frontAt": "front_at",
    "functionPath": "function_path",
    "groundOf": "ground_of",
    "hashOf": "hash_of",
    "hasherAt": "hasher_at",
    "hashesBy": "hashes_by",
    "headAt": "head_at",
    "hiddenAll": "hidden_all",
    "holdsReturn": "holds_return",
    "i-in": "i_in",
    "i-low": "i_low",
    "in-run": "in_run",
    "inOrder": "in_order",
    "inOrder-both": "in_order-both",
    "inOrder-parts": "in_order-parts",
    "is-96": "is_96",
    "is-97": "is_97",
    "is-empty": "is_empty",
    "is-kept": "is_kept",
    "is-tail": "is_tail",
    "isAbsent": "is_absent",
    "isClass": "is_class",
    "isFree": "is_free",
    "isKind": "is_kind",
    "isMarked": "is_marked",
    "isNothing": "is_nothing",
    "isReturn": "is_return",
    "j-in": "j_in",
    "j-low": "j_low",
    "kidAt": "kid_at",
    "kidCount": "kid_count",
    "kids-low": "kids_low",
    "kidsAt": "kids_at",
    "kidsBare": "kids_bare",
    "kidsIn": "kids_in",
    "kidsOf": "kids_of",
    "kindIn": "kind_in",
    "kindWord": "kind_word",
    "l-held": "l_held",
    "labelWord": "label_word",
    "larger-room": "larger_room",
    "leBytesOf": "le_bytes_of",
    "left-lines": "left_lines",
    "leftOut": "left_out",
    "letThen": "let_then",
    "limitOf": "limit_of",
    "localWords": "local_words",
    "meetsName": "meets_name",
    "meetsRule": "meets_rule",
    "moreArguments": "more_arguments",
    "moreConstantArguments": "more_constant_arguments",
    "nextFeed": "next_feed",
    "noKind": "no_kind",
    "nodeFeed": "node_feed",
    "nodeHash": "node_hash",
    "nodes-room": "nodes_room",
    "notReversed": "not_reversed",
    "noteAll": "note_all",
    "noteAll-++": "note_all-++",
    "numbersOf": "numbers_of",
    "ofWords": "of_words",
    "onceD": "once_d",
    "onceE": "once_e",
    "one-renaming": "one_renaming",
    "orElse-inv": "or_else-inv",
    "orElse-some": "or_else-some",
    "orSelf": "or_self",
    "otherValue": "other_value",
    "overReduced": "over_reduced",
    "placeBy": "place_by",
    "placeOf": "place_of",
    "q-in": "q_in",
    "r-96": "r_96",
    "r-97": "r_97",
    "r-held": "r_held",
    "reachAll": "reach_all",
    "reachAll-decls": "reach_all-decls",
    "reduceAll": "reduce_all",
    "reduceAll-clean": "reduce_all-clean",
    "reduceAll-cons": "reduce_all-cons",
    "reduceAll-decls": "reduce_all-decls",
    "reduceAll-nil": "reduce_all-nil",
    "reduceAll-reach": "reduce_all-reach",
    "reduceAll-scoped": "reduce_all-scoped",
    "reduceAll-uses": "reduce_all-uses",
    "renamedLocals": "renamed_locals",
    "restBy": "rest_by",
    "returnOne": "return_one",
    "returnStatement": "return_statement",
    "reversedTest": "reversed_test",
    "reversesTest": "reverses_test",
    "rotatedFive": "rotated_five",
    "rotatingStep": "rotating_step",
    "ruleFeed": "rule_feed",
    "sameRule": "same_rule",
    "scopingAll": "scoping_all",
    "second-tree": "second_tree",
    "seen-room": "seen_room",
    "shapeOfBlock": "shape_of_block",
    "shapeOfBody": "shape_of_body",
    "sizeAll": "size_all",
    "sizesOf": "sizes_of",
    "smaller-room": "smaller_room",
    "sound-apartAll": "sound-apart_all",
    "soundTest": "sound_test",
    "stepsAll": "steps_all",
    "stepsAll-length": "steps_all-length",
    "tellsClass": "tells_class",
    "tellsCut": "tells_cut",
    "tellsEnter": "tells_enter",
    "tellsFind": "tells_find",
    "tellsHash": "tells_hash",
    "timesL": "times_l",
    "timesR": "times_r",
    "toldAll": "told_all",
    "treeAt": "tree_at",
    "treeBare": "tree_bare",
    "treeIn": "tree_in",
    "treesOf": "trees_of",
    "twoLets": "two_lets",
    "twoOf": "two_of",
    "unsafeBlock": "unsafe_block",
    "unsafeEmptyBlock": "unsafe_empty_block",
    "usedIn": "used_in",
    "usedIn-++": "used_in-++",
    "usesAll": "uses_all",
    "usesOf": "uses_of",
    "verbAt": "verb_at",
    "verbBy": "verb_by",
    "verbWord": "verb_word",
    "wAt": "w_at",
    "walkAll": "walk_all",
    "walkAll-decls": "walk_all-decls",
    "walkAll-uses": "walk_all-uses",
    "walkedBy": "walked_by",
    "zeroOnly": "zero_only",
}

WORD = re.compile(r"[A-Za-z_][A-Za-z0-9_'+-]*")
# a text in quotes keeps its words
QUOTED = re.compile(r'"(?:[^"\\]|\\.)*"')


def respell(text):
    return WORD.sub(lambda m: NAMES.get(m[0], m[0]), text)


def respell_source(line):
    """A line of the code, outside its texts and its comments."""
    code, mark, comment = line.partition("//")
    if QUOTED.search(line):
        return line
    return respell(code) + mark + comment


def files():
    for folder, dirs, names in os.walk("crates"):
        dirs[:] = sorted(d for d in dirs if d != "out")
        for name in sorted(names):
            if name.endswith((".antt", ".rt")):
                yield os.path.join(folder, name)


def main():
    changed = 0
    for path in files():
        with open(path, encoding="utf-8") as file:
            old = file.read()
        if path.endswith(".antt"):
            new = respell(old)
        else:
            new = "".join(respell_source(line) for line in old.splitlines(keepends=True))
        if new != old:
            changed += 1
            with open(path, "w", encoding="utf-8") as file:
                file.write(new)
    print(f"{changed} files respelled")
    return 0


if __name__ == "__main__":
    sys.exit(main())
