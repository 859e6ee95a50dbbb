"""Words that papers have in backticks and that the tree does not define: of the languages, the toolchain, C, Unix."""

OUTSIDE = set("""
    rt bash rustc python3 clang cc cmp grep git PATH browser
    rt·ci rt·check rt·fmt rt·lib rt·run rt·must-fail rt·all·check rt·version rt:·ok command·-v·rt HANDLES
    cond eqb ltb leb get_or length take drop now old new result Reads
    requires ensures pub pub(crate) match let if else mod Result Display Model usize u8 u16 u32 u64 u32::count_ones
    memset read write NULL stdio.h record
    .edit .antt .rt .md blank
""".replace("\n", " ").split())
OUTSIDE = {word.replace("·", " ") for word in OUTSIDE}
