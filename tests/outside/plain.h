/*
 * The sixteen calls once more, in plain C: plain.c. Each has the type of the call of grelpicado.h whose
 * name it bears.
 */
#ifndef PLAIN_H
#define PLAIN_H

#include "grelpicado.h"

__typeof__(grelpicado_fresh) plain_fresh;
__typeof__(grelpicado_report) plain_report;
__typeof__(grelpicado_tick) plain_tick;
__typeof__(grelpicado_start) plain_start;
__typeof__(grelpicado_stop) plain_stop;
__typeof__(grelpicado_clear) plain_clear;
__typeof__(grelpicado_read_status) plain_read_status;
__typeof__(grelpicado_read_counter) plain_read_counter;
__typeof__(grelpicado_read_missing) plain_read_missing;
__typeof__(grelpicado_read_table) plain_read_table;
__typeof__(grelpicado_read_paint) plain_read_paint;
__typeof__(grelpicado_list_grey) plain_list_grey;
__typeof__(grelpicado_read_frame) plain_read_frame;
__typeof__(grelpicado_save) plain_save;
__typeof__(grelpicado_restore) plain_restore;
__typeof__(grelpicado_request) plain_request;

#endif
