/* svg.h: the sheet's drawing, written to standard output, an element a line. Lengths are the screen's dots. */
#ifndef SVG_H
#define SVG_H

/* The screen. What does not fit stands below it. */
enum { SCREEN_WIDTH = 800, SCREEN_HEIGHT = 480 };

/* How a text stands: bold, white (on black), and where its place is its end or its middle. */
enum { PLAIN = 0, BOLD = 1, WHITE = 2, END = 4, MIDDLE = 8 };

/* A sheet is what is drawn between these two. */
void start_sheet(int height);
void end_sheet(void);

/* Words and figures, none of which has a mark of XML in it, so that nothing is to be escaped. */
void text(double x, double y, int size, int how, const char *format, ...);

/* Broken at blanks into lines of at most so many letters. Returns where the next line would stand. */
double paragraph(double x, double y, int size, int how, int letters, const char *words);

void line(double x1, double y1, double x2, double y2, double width);
void dashed_line(double x1, double y1, double x2, double y2, double width);
void dot(double x, double y, double radius);
void box(double x, double y, double width, double height, const char *fill);
void outline(double x, double y, double width, double height, double broad, const char *stroke);

/* A line through points, which stand between these two, and what it encloses filled. */
void start_line(double width, const char *fill);
void point(double x, double y);
void end_line(void);

#endif
