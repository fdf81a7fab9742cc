"""The files for Vim: how a text is coloured, which files are of the language, and how errors are read."""

from __future__ import annotations

from .forms import DIRECTIVES, PORTS, WORDS, operators

MADE = '" Made by tools/editor-files from tools/words.txt.'
LINKS = {
    "Control": "Statement",
    "Types": "Type",
    "Places": "StorageClass",
    "Conditions": "Function",
    "Kept": "Error",
    "Port": "Constant",
    "NoNumber": "Error",
    "Number": "Number",
    "Operator": "Operator",
    "Transfer": "Special",
    "NoDirective": "Error",
    "Include": "Include",
    "Define": "Define",
    "Todo": "Todo",
    "Comment": "Comment",
}


def any_of(symbols: list[str]) -> str:
    """A Vim pattern (very nomagic) of symbols, the first that fits."""
    return r"\|".join(symbols)


def syntax() -> str:
    """The file syntax/xc.vim. Of two patterns at one place Vim takes the later one."""
    groups = [it for it in WORDS if it not in ("headers", "symbols")]
    keywords = [f"syn keyword xc{group.capitalize()} {' '.join(WORDS[group])}" for group in groups]
    links = [f"hi def link xc{name} {group}" for name, group in LINKS.items()]
    return "\n".join(
        [
            '" Vim syntax file for XC, as xcsim reads it.',
            MADE,
            'if exists("b:current_syntax")',
            "  finish",
            "endif",
            "",
            *keywords,
            rf'syn match xcPort "\v<XS1_PORT_({PORTS})>"',
            r'syn match xcNoNumber "\v<\d\w*>"',
            r'syn match xcNumber "\v<(0x\x+|0b[01]+|0\o*|[1-9]\d*)[uU]=>"',
            rf'syn match xcOperator "\V{any_of(operators())}"',
            r'syn match xcTransfer "\V<:\|:>\|@"',
            r'syn match xcNoDirective "\v^\s*#.*$" contains=xcComment',
            rf'syn match xcInclude "\v^\s*#include\s*\<({DIRECTIVES})\.h\>"',
            r'syn match xcDefine "\v^\s*#define>" nextgroup=xcDefined skipwhite',
            r'syn match xcDefined "\v\h\w*>" contained',
            "syn keyword xcTodo TODO FIXME XXX contained",
            r'syn match xcComment "//.*$" contains=xcTodo,@Spell',
            r'syn region xcComment start="/\*" end="\*/" contains=xcTodo,@Spell',
            "syn sync ccomment xcComment",
            "",
            *links,
            "",
            'let b:current_syntax = "xc"',
            "",
        ]
    )


FTDETECT = f"""{MADE}
autocmd BufNewFile,BufRead *.xc setfiletype xc
"""

FTPLUGIN = f"""{MADE}
if exists("b:did_ftplugin")
  finish
endif
let b:did_ftplugin = 1
setlocal commentstring=//\\ %s comments=s1:/*,mb:*,ex:*/,:// cindent
let b:undo_ftplugin = "setlocal commentstring< comments< cindent<"
"""

COMPILER = f"""\
" Vim compiler file for xcsim: `:compiler xcsim`, and then `:make` checks the file at hand and goes to what it refuses.
{MADE}
if exists("current_compiler")
  finish
endif
let current_compiler = "xcsim"
if !exists("g:xcsim_folder")
  let g:xcsim_folder = fnamemodify(resolve(expand("<sfile>:p")), ":h:h:h:h:h")
endif
let s:command = shellescape(g:xcsim_folder . '/xcsim') . ' check %:S 2>&1 \\| ' . shellescape(g:xcsim_folder . '/tools/explain')
execute 'CompilerSet makeprg=' . escape(s:command, ' \\|"')
CompilerSet errorformat=%f:%l:%c:\\ error:\\ %m,%f:\\ error:\\ %m,%f:%l:%c:\\ rule\\ %n,%f:%l:\\ rule\\ %n,%-G%.%#
"""


def files() -> dict[str, str]:
    """All files for Vim, by their paths."""
    return {
        "vim/syntax/xc.vim": syntax(),
        "vim/ftdetect/xc.vim": FTDETECT,
        "vim/ftplugin/xc.vim": FTPLUGIN,
        "vim/compiler/xcsim.vim": COMPILER,
    }
