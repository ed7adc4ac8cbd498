/* GB_ECON, graphs of an economy: not rebuilt, and nothing of it is here. With SGB_GRAPHBASE_STUBS defined this is an
 * empty header, for those who name it and use none of it. */
#ifndef SGB_GRAPHBASE_STUBS
#error "gb_econ.h: GB_ECON is not rebuilt (docs/GRAPHBASE.md); -DSGB_GRAPHBASE_STUBS makes this header an empty one"
#endif
