/* Drops the answer of every call, so it must not compile where warnings are errors (tests/c/names). It is never run. */
#include "g719.h"

void drop(const uint8_t *in, uint8_t *out, uint16_t *codes, const int16_t *point, const uint32_t *lengths, g719_record record,
          g719_records records);

void drop(const uint8_t *in, uint8_t *out, uint16_t *codes, const int16_t *point, const uint32_t *lengths, g719_record record,
          g719_records records)
{
    g719_read_prefix(in, 1);
    g719_write_prefix(0);
    g719_read(in, 1, codes, G719_CODES, out, G719_TAIL_BYTES);
    g719_write(record, codes, G719_CODES, in, G719_TAIL_BYTES, out, G719_FRAME_BYTES);
    g719_layout(record, codes, G719_CODES);
    g719_write_empty(out, 1);
    g719_choose_flag_n(0, in);
    g719_choose_flag_c(record, codes, G719_CODES);
    g719_legalise(0, in);
    g719_weigh(0, in);
    g719_allot(0, 0, in, 0);
    g719_lattice_point(2, codes);
    g719_lattice_index(2, point);
    g719_codebook_point(1, 0);
    g719_codebook_index(1, point);
    g719_check_file(in, 1, 1);
    g719_read_block(in, 1, 1, codes, G719_CODES, out, G719_TAIL_BYTES);
    g719_write_block(records, 1, codes, G719_CODES, in, G719_TAIL_BYTES, out, G719_FRAME_BYTES);
    g719_check_blocks(in, 1, 1, 1);
    g719_extract(in, 1, 1, 0, out, 1);
    g719_join(in, 1, lengths, 1, out, 1);
    g719_reply_text(0);
}
