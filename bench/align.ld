/* The contenders' functions stand at multiples of 64 bytes. Else a time hangs on where the linker happens to put a function, by up to a third. */
SECTIONS
{
    .text.contenders : SUBALIGN(64)
    {
        *libengine_bench.a:*(.text .text.*)
        *libtypestock_c.a:*(.text .text.*)
        *libplain-*.rlib:*(.text .text.*)
    }
}
INSERT BEFORE .text;
