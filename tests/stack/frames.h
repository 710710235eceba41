/* One frame a call: it makes the call with what is lent, measures it, and keeps the answer. */
#ifndef FRAMES_H
#define FRAMES_H

#include "instrument.h"
#include "networks.h"

/* Every answer begins with its number, and all but two have the place next. */
union answer {
    struct {
        size_t number, place;
    } first;
    nesbrunka_judged judged;
    nesbrunka_packed packed;
    nesbrunka_pressed pressed;
    nesbrunka_reason reason;
    nesbrunka_sided sided;
    nesbrunka_planned planned;
    nesbrunka_floored floored;
    nesbrunka_sheet_read read;
    nesbrunka_sheet_written written;
    nesbrunka_ordered ordered;
    size_t number; /* of nesbrunka_better and nesbrunka_centre_number */
    double centre;
};

extern union answer answer;

void judge(void);
void pack(void);
void press(void);
void why(void);
void better(void);
void two_sides(void);
void plan(void);
void improve(void);
void floor_of_list(void);
void read_sheet(void);
void write_sheet(void);
void centre(void);
void centre_number(void);
void order_write(void);
void order_read(void);

#endif
