#include "commands.h"

#include <string.h>

#include "change.h"
#include "check.h"
#include "convert.h"
#include "figures.h"
#include "numbers.h"
#include "plans.h"
#include "sheet.h"
#include "show.h"

enum {
    FROM = 1 << OPTION_FROM,
    MOST = 1 << OPTION_MOST,
    CAP = 1 << OPTION_CAP,
    SHEET = 1 << OPTION_SHEET,
    FEWEST = 1 << OPTION_FEWEST,
    JSON = 1 << OPTION_JSON,
    GIVEN_PLAN = TAKES_FILE | TAKES_PLAN | NEEDS_PLAN,
    CHANGE = TAKES_FILE | NEEDS_PATH
};

#define PLAN_WORDS "A plan's line: the slots of items 0 upward and, after a stroke, its callouts.\n"
#define SLOTS_WORDS "SLOTS are the slots of items 0 upward. A stroke / and all after it is passed\n" \
                    "over, so that a plan's line can be given as it was printed.\n"
#define CHANGE_WORDS "The file is replaced as a whole or not at all; a text keeps its comments. Told\n" \
                     "are the cell, the number of complete plans and the grade, before and now.\n"

const command COMMANDS[] = {
    {"show", "rota show FILE [--json]", TAKES_FILE, 0, JSON, run_show, "the grid and the figures",
     "Shows the rota as a grid, a line for each item and a character for each slot,\n"
     "and below it the number of complete plans, the fewest callouts and the grade.\n"
     "If there is no plan, the items that are short are marked and named. On a\n"
     "terminal the grid has colours, unless NO_COLOR is set and not empty.\n"},
    {"draw", "rota draw FILE", TAKES_FILE, 0, 0, run_draw, "the same as an SVG picture",
     "Writes what show shows as an SVG picture, to be looked at or printed.\n"},
    {"check", "rota check FILE [--json]", TAKES_FILE | ADVISES, 0, JSON, run_check, "what is refused, and what to do",
     "Says whether the rota is accepted, whether it has a first plan, a count and a\n"
     "grade, and what to do about a refusal. The status is 1 if there is no plan.\n"},
    {"first", "rota first FILE [--json]", TAKES_FILE, 0, JSON, run_first, "the first plan",
     "Gives the first complete plan, in the order of a dictionary.\n" PLAN_WORDS},
    {"next", "rota next FILE SLOTS... | --sheet SHEET [--json]", GIVEN_PLAN, 0, SHEET | JSON, run_next,
     "the plan after a given one",
     "Gives the first complete plan after the given one.\n" SLOTS_WORDS},
    {"list", "rota list FILE [--from K] [--most N] [--json]", TAKES_FILE, 0, FROM | MOST | JSON, run_list,
     "plans in order",
     "Lists complete plans in order, each after its plan number, which counts from 0.\n"
     "The last line is end, or more if a further plan follows, and how many are\n"
     "listed. --from is for up to 20 items.\n" PLAN_WORDS},
    {"fewest", "rota fewest FILE [--cap R] [--json]", TAKES_FILE, 0, CAP | JSON, run_fewest,
     "the plan with the fewest callouts",
     "Gives the first of the complete plans with the fewest callouts.\n" PLAN_WORDS},
    {"cell", "rota cell FILE I J [--json]", TAKES_FILE, 2, JSON, run_cell, "the first plan that uses a cell",
     "Gives the first complete plan that gives item I slot J, or says that none does.\n" PLAN_WORDS},
    {"at", "rota at FILE K [--json]", TAKES_FILE, 1, JSON, run_at, "the plan with a plan number",
     "Gives the plan with plan number K, which counts from 0; up to 20 items.\n" PLAN_WORDS},
    {"number", "rota number FILE SLOTS... | --sheet SHEET [--json]", GIVEN_PLAN, 0, SHEET | JSON, run_number,
     "the plan number of a given plan",
     "Says how many complete plans come before the given one; up to 20 items.\n" SLOTS_WORDS},
    {"sheet", "rota sheet FILE [SLOTS... | --sheet SHEET | --fewest] [--json]", TAKES_FILE | TAKES_PLAN, 0,
     SHEET | FEWEST | JSON, run_sheet, "a plan's sheet for the wall",
     "Writes the sheet of the given plan, or of the first one: a line for each item\n"
     "(IT), with its slot (SL) and a C if this is a callout.\n" SLOTS_WORDS},
    {"usable", "rota usable FILE [--json]", TAKES_FILE, 0, JSON, run_usable, "the cells that some plan uses",
     "Writes the usable cells as a text: . not usable, o usable, C usable and a\n"
     "callout.\n"},
    {"short", "rota short FILE [--json]", TAKES_FILE, 0, JSON, run_short, "who is short",
     "Names the items that are short of slots and says by how many, or that nobody\n"
     "is.\n"},
    {"count", "rota count FILE [--json]", TAKES_FILE, 0, JSON, run_count, "the number of plans",
     "Gives the number of complete plans; up to 20 items.\n"},
    {"grade", "rota grade FILE [--json]", TAKES_FILE, 0, JSON, run_grade, "the grade",
     "Gives the grade, 1 to 5; up to 20 items.\n"},
    {"price", "rota price FILE VEHICLES [--json]", TAKES_FILE, 1, JSON, run_price, "the monthly price",
     "Gives the monthly price for a fleet of 1 to 10,000 vehicles; up to 20 items.\n"},
    {"open", "rota open FILE I J [--json]", CHANGE, 2, JSON, run_open, "open a slot to an item",
     "Makes the cell of item I and slot J open, and no callout, in the file.\n" CHANGE_WORDS},
    {"close", "rota close FILE I J [--json]", CHANGE, 2, JSON, run_close, "close a slot to an item",
     "Makes the cell of item I and slot J closed in the file.\n" CHANGE_WORDS},
    {"callout", "rota callout FILE I J [--json]", CHANGE, 2, JSON, run_callout, "make a cell a callout",
     "Makes the cell of item I and slot J open and a callout in the file.\n" CHANGE_WORDS},
    {"text", "rota text FILE", TAKES_FILE, 0, 0, run_text, "the rota as a text",
     "Writes the rota as a text: a line for each item, a character for each slot.\n"},
    {"file", "rota file TEXT", TAKES_FILE | NO_TERMINAL, 0, 0, run_file, "the rota as a rota file",
     "Writes the rota as a rota file; standard output must not be a terminal.\n"},
    {"new", "rota new N", 0, 1, 0, run_new, "a new text",
     "Writes a new text of N items, 1 to 64, with every cell closed.\n"}
};

const size_t COMMANDS_COUNT = sizeof COMMANDS / sizeof COMMANDS[0];

const command *command_named(const char *name)
{
    for (size_t i = 0; i < COMMANDS_COUNT; i++) {
        if (strcmp(COMMANDS[i].name, name) == 0) {
            return &COMMANDS[i];
        }
    }
    return NULL;
}
