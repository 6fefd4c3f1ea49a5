/* The tables of a program go to both sections. */
__asm__(".cfi_sections .eh_frame, .debug_frame");
