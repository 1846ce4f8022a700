/* drawing.h: the parts of the sheet, and where each stands on it. */
#ifndef DRAWING_H
#define DRAWING_H

#include "fordwhistle.h"
#include "law.h"
#include "section.h"

/* The head's lower edge, the foot's upper edge, the line between left and right. */
enum { HEAD = 60, FOOT = 400, DIVIDE = 530 };

/* What is asked: a record by its number, of a book of which so many bytes were read, with what the unit says of it; and a class. */
typedef struct {
    const char *name;
    size_t bytes;
    fw_book_answer book;
    uint32_t number;
    int class_asked;
    uint16_t fr1, fr3;
} asked;

/* Above: the moment to read, or what is refused. */
void draw_head(const list *l);
void draw_refused_head(uint32_t refusal);

/* How much of the section is drawn: all of it; its web and a piece of its flange; a piece of its width, within the web. */
typedef enum { WHOLE, FLANGE_CUT, CUT } extent;

/* Where the section is drawn, dots a mm; within it the web, and how high the flange is, 0 where none is drawn. */
typedef struct {
    extent drawn;
    double left, top, width, height, scale, web_left, web_width, flange;
} frame;

frame frame_of(const section *s);

/* Where a depth lies on the sheet, and where the concrete begins there, from the left. */
double place_of(const frame *f, double mm);
double left_at(const frame *f, double mm);

/* Left: concrete and stirrups, under the lines across; the layers, over them. */
void draw_section(const section *s, const frame *f);
void draw_layers(const section *s, const frame *f);

/* Left: each listed depth as a line across the section, with its words; or why there is none. */
void draw_depths(const list *l, const frame *f);

/* How high the sheet is: the screen, and what is listed below it where the depths are more than the screen has room for. */
int sheet_height(const list *l);

/* Right: the law, and the stress over the height at the depth to read. */
void draw_law(const section *s, const bends *b);
void draw_stress(const section *s, const bends *b, const list *l);

/* Below: load and shear of a section that is accepted, else null; class; record, or the bytes of a book that is refused. */
void draw_foot(const section *s, const asked *a);

/* Between head and foot: what a refusal means and what to do about it. The section is null where the record was not found. */
void draw_refused(uint32_t refusal, const section *s);

typedef struct {
    const char *meaning, *remedy;
} refusal_words;

refusal_words words_of(uint32_t refusal);

/* Moves labels, each this high and given by its upper edge, from above, so far that none lies over the next and none leaves the room. */
void spread(double *tops, const double *heights, size_t n, double from, double to);

#endif
