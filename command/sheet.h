/* The plan sheet. */
#ifndef SHEET_H
#define SHEET_H

#include "command.h"

int run_sheet(const call *c, const input *rota);

#endif
