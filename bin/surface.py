#!/usr/bin/env python3
"""Lists the public names of the Rust crate that this port has, and where each is.

usage: bin/surface.py [FACE..]

A name is listed with the crate that exports it (its face), its module there, and the file that has it. The names of states are those of
`Inline` and `Block` in engine_states, written as the functions of their modules; the others are in NAMES below. A name that its face
doesn't export is listed last, and the status is 1.
"""
import glob
import os
import re
import sys

TOP = os.path.dirname(os.path.dirname(os.path.realpath(__file__)))

# The names but those of states, by face and module; `Type.call` is a call of a type or a trait.
NAMES = """
markdown_engine
  : CompileOptions CompileOptions.default CompileOptions.gfm Constructs Constructs.default Constructs.gfm Constructs.mdx Constructs.none
  : Options Options.default Options.gfm Options.has_mdx ParseOptions ParseOptions.default ParseOptions.gfm ParseOptions.mdx
  : LineEnding LineEnding.as_str LineEnding.from_str LineEnding.default LineEndingError Message Place ParseState EditMap EditMap.new
  : EditMap.add EditMap.add_before EditMap.consume Tables Tables.reference Tables.is_punctuation divide_events link link_to subtokenize
  unist: Point Point.new Position Position.new
  event: Event Kind Name VOID_EVENTS Content Link
  place: Point Point.to_unist Point.shift_to
  state: State State.to_result Name
  resolve: Name
  subresult: Subresult
  container: Container ContainerState
  label: LabelKind LabelStart Label
  tokenize_state: TokenizeState
  tokenizer: Machine Machine.call Machine.resolve Tokenizer Tokenizer.new Tokenizer.register_resolver Tokenizer.register_resolver_before
  tokenizer: Tokenizer.define_skip Tokenizer.consume Tokenizer.enter Tokenizer.enter_link Tokenizer.exit Tokenizer.check Tokenizer.attempt
  tokenizer: Tokenizer.push Tokenizer.flush
  slice: Slice Slice.from_position Slice.from_indices Slice.len Slice.as_str Slice.serialize Position Position.from_exit_event
  slice: Position.to_indices
  location: Location Location.new Location.to_point Location.relative_to_point Location.relative_to_absolute Stop
  skip: opt opt_back to to_back
  char: Kind before_index after_index kind_after_index classify classify_opt format format_opt format_byte format_byte_opt
  constants: AUTOLINK_SCHEME_SIZE_MAX AUTOLINK_DOMAIN_SIZE_MAX CHARACTER_REFERENCE_DECIMAL_SIZE_MAX
  constants: CHARACTER_REFERENCE_HEXADECIMAL_SIZE_MAX CHARACTER_REFERENCE_NAMED_SIZE_MAX CODE_FENCED_SEQUENCE_SIZE_MIN
  constants: FRONTMATTER_SEQUENCE_SIZE GFM_HTML_TAGFILTER_SIZE_MAX HARD_BREAK_PREFIX_SIZE_MIN HEADING_ATX_OPENING_FENCE_SIZE_MAX
  constants: HTML_RAW_SIZE_MAX LINK_REFERENCE_SIZE_MAX LIST_ITEM_VALUE_SIZE_MAX MATH_FLOW_SEQUENCE_SIZE_MIN
  constants: RESOURCE_DESTINATION_BALANCE_MAX TAB_SIZE THEMATIC_BREAK_MARKER_COUNT_MIN HTML_CDATA_PREFIX HTML_RAW_NAMES
  constants: GFM_HTML_TAGFILTER_NAMES SAFE_PROTOCOL_HREF SAFE_PROTOCOL_SRC HTML_BLOCK_NAMES
markdown_inline
  : Inlines label_text
  attention: resolve
  gfm_autolink_literal: resolve
  label_end: resolve
  partial_data: resolve
  string: resolve
  text: resolve
  partial_space_or_tab: space_or_tab space_or_tab_min_max space_or_tab_with_options Options
  partial_space_or_tab_eol: space_or_tab_eol space_or_tab_eol_with_options Options
  partial_whitespace: resolve_whitespace
  normalize_identifier: normalize_identifier
  character_reference: decode_named decode_numeric decode value_max value_test parse
markdown_states
  : Contents Flows Blocks
  content: resolve
  gfm_table: resolve
  heading_atx: resolve
  heading_setext: resolve
  list_item: resolve
markdown_block
  parser: parse ParseState
markdown_html
  util.encode: encode
  util.gfm_tagfilter: gfm_tagfilter
  util.sanitize_uri: sanitize sanitize_with_protocols
  util.infer: list_loose list_item_loose gfm_table_align
  to_html: check_events Checked CompileError EventFault FaultKind compile
  : AlignKind
markdown
  : to_html to_html_with_options to_html_with_tables fits Builtin Rows Rows.read RowsError Watched Watched.new Watched.failed
  : Watched.into_inner run RunError
  character_reference: parse
  mdast: AlignKind
"""

# The modules of states whose names don't begin with that of their module.
MODULES = {"bom": "partial_bom", "data": "partial_data", "destination": "partial_destination", "label": "partial_label",
           "non_lazy_continuation": "partial_non_lazy_continuation", "space_or_tab": "partial_space_or_tab",
           "space_or_tab_eol": "partial_space_or_tab_eol", "title": "partial_title"}
# The one variant that isn't named by its function.
RENAMED = {"container_new_before_not_gfm_footnote_definition": "container_new_before_not_footnote_definition"}
FACES = {"Inline": "markdown_inline", "Block": "markdown_states"}


def read(path):
    with open(path, encoding="utf-8") as file:
        return re.sub(r"^\s*//.*$", "", file.read(), flags=re.M)


def snake(word):
    return re.sub(r"(?<!^)(?=[A-Z])", "_", word).lower()


class Module:
    """What a module of a crate has: items of its own, and names that it takes from elsewhere."""

    def __init__(self, crate, file, text):
        self.crate, self.file, self.text = crate, file, text
        self.inner, self.taken = {}, {}
        bare = self.own_lines(text)
        for name in re.findall(r"^(?:pub(?:\(crate\))? )?mod (\w+);", bare, re.M):
            self.inner[name] = below(crate, file, name)
        for tree in re.findall(r"^pub use ([^;]+);", bare, re.M):
            self.take("", re.sub(r"\s+", " ", tree).strip())

    def own_lines(self, text):
        """The text without its inner modules, which are read."""
        while True:
            found = re.search(r"^pub mod (\w+) \{\n(.*?)^\}$", text, re.M | re.S)
            if not found:
                return text
            inner = re.sub(r"^    ", "", found[2], flags=re.M)
            self.inner[found[1]] = Module(self.crate, self.file, inner)
            text = text[:found.start()] + text[found.end():]

    def take(self, path, tree):
        head, brace, rest = tree.partition("{")
        if brace:
            depth, word = 0, ""
            for sign in rest.rstrip().removesuffix("}") + ",":
                depth += {"{": 1, "}": -1}.get(sign, 0)
                if sign == "," and depth == 0:
                    if word.strip():
                        self.take(path + head.strip(), word.strip())
                    word = ""
                else:
                    word += sign
            return
        whole, _, alias = (path + tree).partition(" as ")
        self.taken[alias or whole.split("::")[-1]] = whole

    def find(self, words):
        """The file of an item by its path in this module, or None."""
        first, rest = words[0], words[1:]
        if first in self.inner:
            module = self.inner[first]
            return module.find(rest) if rest else module.file
        if first in self.taken:
            path = self.taken[first].split("::")
            if path[0] == "crate":
                return root(self.crate).find(path[1:] + rest)
            if path[0] in self.inner:
                return self.inner[path[0]].find(path[1:] + rest)
            return root(path[0]).find(path[1:] + rest)
        if rest:
            return None
        pattern = r"^pub (?:const fn|fn|const|struct|enum|trait|type) %s\b" % re.escape(first)
        return self.file if re.search(pattern, self.text, re.M) else None


def below(crate, file, name):
    folder = os.path.dirname(file)
    if os.path.basename(file) not in ("lib.rt", "main.rt"):
        folder = file[:-3]
    path = os.path.join(folder, name + ".rt")
    return Module(crate, path, read(path))


ROOTS = {}


def root(crate):
    if crate not in ROOTS:
        path = os.path.join(TOP, "crates", crate, "src/lib.rt")
        ROOTS[crate] = Module(crate, path, read(path))
    return ROOTS[crate]


def states():
    """The names of states, as their faces have them: the face, the module, the function."""
    text = read(os.path.join(TOP, "crates/engine_states/src/state.rt"))
    for kind, face in FACES.items():
        body = re.search(r"pub enum %s \{(.*?)\n\}" % kind, text, re.S)[1]
        modules = {**{name: name for name in [*root(face).inner, *root(face).taken]}, **MODULES}
        for variant in re.findall(r"^    (\w+),", body, re.M):
            word = snake(variant)
            fitting = [name for name in modules if word.startswith(name + "_")]
            if not fitting:
                yield face, "", word
                continue
            name = max(fitting, key=len)
            function = word[len(name) + 1:]
            yield face, modules[name], RENAMED.get(function, function)


def others():
    face = ""
    for line in NAMES.split("\n"):
        if line and not line.startswith(" "):
            face = line
        elif line:
            module, _, names = line.strip().partition(":")
            for name in names.split():
                yield face, module.strip(), name


def has_call(file, kind, call):
    """Whether a file, or one beside it, has a call of a type; one that is derived counts."""
    for path in [file, *sorted(glob.glob(os.path.join(os.path.dirname(file), "*.rt")))]:
        text = read(path)
        if not re.search(r"\b%s\b" % kind, text):
            continue
        if re.search(r"^\s+(?:pub )?fn %s\b" % call, text, re.M):
            return True
        if call == "default" and re.search(r"derive\([^)]*\bDefault\b[^)]*\)\]\s*pub (?:struct|enum) %s\b" % kind, text):
            return True
    return False


def main():
    faces = sys.argv[1:]
    count, missing = 0, []
    for face, module, name in [*others(), *states()]:
        if faces and face not in faces:
            continue
        count += 1
        shown = "::".join(part for part in (face, module.replace(".", "::"), name.replace(".", "::")) if part)
        kind, _, call = name.partition(".")
        file = root(face).find([*module.split("."), kind] if module else [kind])
        if file is None or (call and not has_call(file, kind, call)):
            missing.append(shown)
        else:
            print(f"{shown}: {os.path.relpath(file, TOP)}")
    print(f"{count - len(missing)} of {count} names are there")
    for shown in missing:
        print(f"not there: {shown}")
    sys.exit(1 if missing else 0)


if __name__ == "__main__":
    main()
