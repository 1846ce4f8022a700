/* What refusals mean, and the sheet of a refused book, record or section. */
#include "drawing.h"

#include <inttypes.h>
#include <stdio.h>

#include "figure.h"
#include "svg.h"

/* By number, those that leave a sheet without its moment: the table of refusals, and what to do. */
refusal_words words_of(uint32_t refusal)
{
    static const refusal_words table[] = {
        {"", ""},
        {"The book is shorter than 16 bytes, longer than 65536 bytes, or not of its stated length.",
         "The card was cut short, or holds more than the book: copy the book again."},
        {"The last four bytes of the book are not BOOK.", "This is no section book, or its end is lost: copy the book again."},
        {"The place of the index + 4n + 16 is not the length of the book.", "The end of the book is damaged: copy the book again."},
        {"The first record does not start at byte 0, a record has more than 8 layers, or one does not end where the next or the index starts.",
         "The records or the index are damaged: copy the book again."},
        {"The book has no record of this number.", "Records are numbered from 0: ask for one that the book has."},
        {"The record is not 24 + 4m bytes, 28 + 4m with a flange, has more than 8 layers, or the zero after bf is not zero.",
         "The record is damaged: file the section again."},
        {"The concrete is not in the table: fck is none of 20, 25, 30, 35, 40, 45, 50 N/mm².",
         "Choose a concrete of the table and file the section again."},
        {"The width b is not 50 to 2000 mm, or the height h is not 50 to 1000 mm.",
         "Check b and h and file the section again. Outside these limits there is no answer."},
        {"The bar strength fyk is not 400 to 600 N/mm².", "Look up the steel of the bars and file the section again."},
        {"The fibre strength feq2 or feq3 is over 20 N/mm².", "Look up the beam tests, mind the unit, kPa, and file the section again."},
        {"The axial load is not −10000 to 10000 kN.", "Mind the unit, N, and file the section again."},
        {"Bars: a layer is not within the height or has no area, the depths do not rise, or the deepest layer is not below mid-height.",
         "Give depth and area of each layer from the compressed face down, and file the section again."},
        {"There are stirrups without a spacing.", "Give the spacing s, or no stirrup area, and file the section again."},
        {"There is no depth to list.", "The same side outweighs the other at every depth: check the axial load, the bars and the fibres."},
        [20] = {"The flange height hf is not below h, or the flange width bf is below b or over 2000 mm.",
                "Check hf and bf, give hf 0 where there is no flange, and file the section again."},
    };
    return table[refusal];
}

/* What a refused record holds there. */
typedef struct {
    char text[8 + 32 * MOST_LAYERS];
} found_words;

static found_words bars_of(const section *s)
{
    found_words f;
    unsigned len = (unsigned)snprintf(f.text, sizeof f.text, "h %u mm", s->h);
    for (unsigned j = 0; j < s->m; j++)
        len += (unsigned)snprintf(f.text + len, sizeof f.text - len, ", %u\u00a0mm²\u00a0at\u00a0%u\u00a0mm", s->layers[j].area, s->layers[j].depth);
    return f;
}

static found_words found(uint32_t refusal, const section *s)
{
    found_words f = {""};
    figure feq2 = exact(s->feq2, 3), feq3 = exact(s->feq3, 3), load = exact(s->load, 3);
    switch (refusal) {
    case 6: snprintf(f.text, sizeof f.text, "%u in the field after bf that has to be zero", s->zero); break;
    case 7: snprintf(f.text, sizeof f.text, "fck %u N/mm²", s->fck); break;
    case 8: snprintf(f.text, sizeof f.text, "b %u mm, h %u mm", s->b, s->h); break;
    case 9: snprintf(f.text, sizeof f.text, "fyk %u N/mm²", s->fyk); break;
    case 10: snprintf(f.text, sizeof f.text, "feq2 %s N/mm², feq3 %s N/mm²", feq2.text, feq3.text); break;
    case 11: snprintf(f.text, sizeof f.text, "axial load %s kN", load.text); break;
    case 12: return bars_of(s);
    case 20: snprintf(f.text, sizeof f.text, "hf %u mm, bf %u mm, b %u mm, h %u mm", s->hf, s->bf, s->b, s->h); break;
    default: snprintf(f.text, sizeof f.text, "Asw %u mm², s %u mm", s->asw, s->s);
    }
    return f;
}

void draw_refused(uint32_t refusal, const section *s)
{
    refusal_words w = words_of(refusal);
    double y = paragraph(12, HEAD + 42, 24, BOLD, 52, w.meaning);
    if (s != NULL) {
        found_words f = found(refusal, s);
        text(12, y + 6, 19, BOLD, "The record has");
        y = paragraph(12, y + 30, 18, PLAIN, 70, f.text);
    }
    text(12, y + 20, 19, BOLD, "What to do");
    paragraph(12, y + 50, 24, PLAIN, 56, w.remedy);
}
