/* GB_WORDS, graphs of five-letter words: not rebuilt, and nothing of it is here. With SGB_GRAPHBASE_STUBS defined this
 * is an empty header, for those who name it and use none of it. */
#ifndef SGB_GRAPHBASE_STUBS
#error "gb_words.h: GB_WORDS is not rebuilt (docs/GRAPHBASE.md); -DSGB_GRAPHBASE_STUBS makes this header an empty one"
#endif
