"""The names of parse errors."""

# The errors of tokenization (HTML standard, section 13.2.2).
NAMES = set("""
abrupt-closing-of-empty-comment abrupt-doctype-public-identifier abrupt-doctype-system-identifier
absence-of-digits-in-numeric-character-reference cdata-in-html-content character-reference-outside-unicode-range
control-character-in-input-stream control-character-reference duplicate-attribute end-tag-with-attributes end-tag-with-trailing-solidus
eof-before-tag-name eof-in-cdata eof-in-comment eof-in-doctype eof-in-script-html-comment-like-text eof-in-tag
incorrectly-closed-comment incorrectly-opened-comment invalid-character-sequence-after-doctype-name invalid-first-character-of-tag-name
missing-attribute-value missing-doctype-name missing-doctype-public-identifier missing-doctype-system-identifier missing-end-tag-name
missing-quote-before-doctype-public-identifier missing-quote-before-doctype-system-identifier
missing-semicolon-after-character-reference missing-whitespace-after-doctype-public-keyword
missing-whitespace-after-doctype-system-keyword missing-whitespace-before-doctype-name missing-whitespace-between-attributes
missing-whitespace-between-doctype-public-and-system-identifiers nested-comment noncharacter-character-reference
noncharacter-in-input-stream null-character-reference surrogate-character-reference surrogate-in-input-stream
unexpected-character-after-doctype-system-identifier unexpected-character-in-attribute-name
unexpected-character-in-unquoted-attribute-value unexpected-equals-sign-before-attribute-name unexpected-null-character
unexpected-question-mark-instead-of-tag-name unexpected-solidus-in-tag unknown-named-character-reference
""".split())

# Words for errors of tree construction that have several names, and the names here and in html5lib's lists.
KINDS = {
    "end-of-input": "open-element-at-end-of-body expected-closing-tag-but-got-eof eof-in-table eof-in-select",
    "end-of-text": "eof-in-text expected-named-closing-tag-but-got-eof",
    "text-before-table": "unexpected-char-implies-table-voodoo unexpected-character-implies-table-voodoo foster-parenting-character"
    " foster-parenting-character-in-table",
    "start-tag-before-table": "unexpected-start-tag-implies-table-voodoo foster-parenting-start-tag foster-parenting-start-token",
    "end-tag-before-table": "unexpected-end-tag-implies-table-voodoo foster-parenting-end-tag",
    "doctype": "bad-doctype unknown-doctype",
    "late-doctype": "late-doctype unexpected-doctype",
    "nested": "unexpected-start-tag-implies-end-tag nested-buttons nested-nobr",
    "start-tag": "unexpected-start-tag unexpected-start-tag-ignored nested-headings nested-forms",
    "image": "unexpected-start-tag-treated-as image-start-tag",
    "no-void": "non-void-html-element-start-tag-with-trailing-solidus non-void-element-with-trailing-solidus",
    "no-doctype": "expected-doctype-but-got-start-tag expected-doctype-but-got-tag",
    # html5lib has a name for each mode, and here there is one for each message.
    "end-tag": "unexpected-end-tag no-p-to-close no-heading-to-close special-element-before-the-one-to-close form-element-out-of-scope"
    " no-form-element-to-close no-form-to-close body-end-tag-without-body html-end-tag-without-body unexpected-open-element end-tag-too-early"
    " end-tag-too-early-named end-tag-too-early-ignored expected-one-end-tag-but-got-another unexpected-cell-end-tag adoption-agency-1.3"
    " unexpected-end-tag-in-table-body unexpected-end-tag-in-table-row unexpected-close-tag",
}
KIND_OF = {name: kind for kind, names in KINDS.items() for name in names.split()}


def kind_of(name):
    return KIND_OF.get(name, name)
