/* The command: finds out what is wanted and calls it. */
#define _POSIX_C_SOURCE 200809L

#include <errno.h>
#include <signal.h>
#include <stdio.h>
#include <stdlib.h>
#include <string.h>

#include "command.h"
#include "files.h"
#include "identity.h"
#include "tejborun.h"

#define STATUSES                                                                                                            \
    "Exit status: 0 done or equal, 1 a refusal or a difference, 2 bad usage or file, 3 stopped before the end (90, 91) or\n" \
    "no verdict; of several the worst in the order 2, 3, 1, 0.\n"

/* The raw files of memories and log. */
#define PART_FILES (TAKES(OPTION_DATA) | TAKES(OPTION_CODE) | TAKES(OPTION_DATA0) | TAKES(OPTION_CODE0) | TAKES(OPTION_LOG))

static const struct command commands[] = {
    {"build", 1, 1, 0, TAKES(OPTION_OUTPUT), true, command_build, "build SHEET -o CHAIN",
     "Builds the chain of a test sheet, of the first or the second edition, and says its bytes, quadwords and steps. The chain of\n"
     "groups is that of their records, repeated in order (docs/TEXT.md); how many records are in the sheet and in its expansion is\n"
     "said too. A chain above 1,048,576 bytes is refused with 49, a group in eight others with 52.\n"},
    {"steps", 1, 1, 0, 0, false, command_steps, "steps SHEET",
     "Says how many steps the chain of a test sheet takes; of a sheet of the second edition also how many records it has, in the\n"
     "sheet and in its expansion, and how long the chain is.\n"},
    {"salvage", 1, SIZE_MAX, 0, TAKES(OPTION_OUTPUT) | TAKES(OPTION_RANGES) | TAKES(OPTION_QUIET) | TAKES(OPTION_JSON), true, command_salvage,
     "salvage SHEET.. -o SHEET or FOLDER [--ranges FILE] [--quiet] [--json]",
     "Keeps what can be kept of damaged sheets. A sheet is read from offset 0: a whole valid record is kept and passed over,\n"
     "otherwise one byte is dropped. The records kept are written one after another, and the ranges dropped are shown, where they\n"
     "begin and how long they are. Several sheets are written to a folder, under their names; they have a row each and a summary.\n"
     "Damage that leaves a record valid, as another number in its body, is not to be seen. Salvage keeps to the first edition: of\n"
     "a sheet of the second the edition and the headers of groups are dropped as damage, the records inside are kept once.\n"
     "  --ranges FILE  writes the ranges as text, a line each: offset and length in decimal; of one sheet\n"
     "  --quiet        prints nothing: the exit status has it\n"
     "  --json         prints JSON\n"
     "The exit status is 0 where nothing was dropped, 1 where something was or the sheet is refused (46: longer than 131,072 bytes).\n"},
    {"meaning", 1, 1, 0, TAKES(OPTION_OUTPUT), true, command_meaning, "meaning SHEET -o RESULT",
     "Writes what the sheet says a board holds afterwards: its records fed to zero memories and an empty log.\n"},
    {"run", 1, 1, 0, TAKES(OPTION_OUTPUT) | TAKES(OPTION_ALLOWANCE) | TAKES(OPTION_FROM) | TAKES(OPTION_NO_START) | TAKES(OPTION_WHY), false,
     command_run, "run CAPTURE [-o RESULT] [--allowance N] [--from RESULT] [--no-start] [--why]",
     "Makes the calls of a capture, prints the answer and the counts of each run, and writes what the last call leaves, with these\n"
     "numbers of the last run. The counts are the steps, the packets closed, the VIF words taken and the NOPs among them, and QWC\n"
     "by tag ID. A packet is closed by the last data of a GIF tag with EOP, or by a GIF tag with EOP and NLOOP 0.\n"
     "  --allowance N  the step allowance of each run, in place of the capture's\n"
     "  --from RESULT  begins with the state, memories and log of a result, in place of the capture's zeros; memories that it\n"
     "                 lacks and no run works on are lacking afterwards too\n"
     "  --no-start     leaves the capture's starts and sets out: with --from a run goes on where it stopped\n"
     "  --why          says in the end why the last run stopped, as the command why does\n"
     "A refused run says by itself why, and is written too, with what its steps left; so is one that Ctrl-C stops, as if its\n"
     "allowance were used.\n"},
    {"why", 1, 1, 0, TAKES(OPTION_ALLOWANCE) | TAKES(OPTION_FROM) | TAKES(OPTION_NO_START), false, command_why,
     "why CAPTURE [--allowance N] [--from RESULT] [--no-start]",
     "Runs a capture as run does and says in one sentence why the last run stopped; of a capture without a run, what the next step\n"
     "would be refused with. The sentence has the refusal, the address of the tag, the VIF word or the GIF quadword, and the number\n"
     "at fault there:\n"
     "  refused 22 at 0x00000A30: UNPACK with WL 0       the next step is refused\n"
     "  refused at the entry, 5: a state or start ..     no step is begun: the lengths, the state, or pending words (14)\n"
     "  the chain has ended                              with nothing pending\n"
     "  no complaint                                     the next step is not refused, as after a used allowance or a mark\n"
     "  --allowance N, --from RESULT, --no-start         as for run\n"
     "Nothing is written. The exit status is that of run.\n"},
    {"play", 1, 1, 0, TAKES(OPTION_OUTPUT), false, command_play, "play SHEET [-o RESULT]",
     "Builds the chain of a test sheet at address 0 and runs it from reset on channel 1, over zero memories and an empty log.\n"
     "Prints the answer and the counts, as run does.\n"},
    {"check", 2, SIZE_MAX, 0,
     TAKES(OPTION_OUTPUT) | TAKES(OPTION_DATA) | TAKES(OPTION_CODE) | TAKES(OPTION_ALLOWANCE) | TAKES(OPTION_QUIET) | TAKES(OPTION_JSON), false, command_check,
     "check SHEET CHAIN.. [--data FILE] [--code FILE] [--allowance N] [-o RESULT] [--quiet] [--json]",
     "Says whether a supplier's chains do what a sheet means. A chain is run from reset on channel 1 at address 0, without tag\n"
     "transfer, and accepted exactly if the run ends with done and VIF1's memories and the log then are the sheet's meaning. Else\n"
     "the first difference is shown, expected and found: the run's answer, the lowest quadword, instruction or log entry, or the\n"
     "number of entries. How long the chain is and how many steps it takes is said beside the chain that build makes of the sheet.\n"
     "Several chains have a row each and a summary.\n"
     "  --data FILE    VIF1's data memory before the run, raw, zeros otherwise\n"
     "  --code FILE    VIF1's code memory, the same\n"
     "  --allowance N  the step allowance of each run, 10,000,000 where it is not given\n"
     "  -o RESULT      writes what the run left, of one chain\n"
     "  --quiet        prints no verdict: the exit status has it\n"
     "  --json         prints JSON\n"
     "Main memory is the chain's file and nothing behind it: a chain that reads beyond its file is refused (10, 14), and a file\n"
     "that is empty, no whole quadwords or longer than 1,048,576 bytes too (1). The log is empty, with room for 65,536 entries.\n"
     "The exit status is 0 where all are accepted, 1 where one differs or is refused, 3 where the allowance stopped a run (90).\n"},
    {"set", 1, 1, 0, TAKES(OPTION_OUTPUT) | TAKES(OPTION_UNIT) | TAKES(OPTION_ROW) | TAKES(OPTION_COL), true, command_set,
     "set FILE -o FILE [--unit N] [--row I=VALUE].. [--col I=VALUE]..",
     "Sets ROW and COL in the state that a file holds, and writes the file with it; all else stays. FILE is a state, a capture\n"
     "(whose calls begin with the state) or a result (which run --from goes on with).\n"
     "  --unit N       the unit whose registers are set: 0 for VIF0, 1 for VIF1; 1 where it is not given\n"
     "  --row I=VALUE  sets ROW I, 0 to 3, to a word, as 0=0x3F800000 or 3=-1; may be given for each\n"
     "  --col I=VALUE  sets COL I, the same\n"
     "While a code of the unit waits for payload they are not set (51); where one is refused, nothing is written.\n"},
    {"compare", 2, SIZE_MAX, 0, TAKES(OPTION_ALL) | TAKES(OPTION_ONLY) | TAKES(OPTION_QUADWORDS) | TAKES(OPTION_UNFINISHED) | TAKES(OPTION_QUIET) | TAKES(OPTION_JSON), false,
     command_compare, "compare RESULT BOARD.. [--only PARTS] [--quadwords A-B] [--all] [--unfinished] [--quiet] [--json]",
     "Compares the memories of VIF1 and VIF0 and the log of boards with those of a result, in the parts that both have. Of one\n"
     "board it shows the first difference of each and how many there are; several boards have a row each and a summary.\n"
     "  --only PARTS  compares these alone, some of data, code, data0, code0, log with commas; one that is lacking: no verdict\n"
     "  --quadwords A-B  of data memory compares quadwords A to B alone, as 0-15, 0x10-0x1F or 7: VIF1's, or those of --only\n"
     "  --all         shows every difference, not only the first of each\n"
     "  --unfinished  compares also where RESULT is of a run that did not end with done (0)\n"
     "  --quiet       prints no verdict: the exit status has it\n"
     "  --json        prints JSON\n"
     "A verdict over some parts names them; equal alone is said of whole results. A log entry is its path (2 or 3 for a write\n"
     "of the GIF, 0 for a program start), register and value; where entries differ in the path alone, that is said. Answer,\n"
     "step count and packets closed are shown and not compared; a sheet's meaning and a board's own dumps have no packets.\n"
     "Registers are neither.\n"},
    {"report", 2, SIZE_MAX, 0, TAKES(OPTION_OUTPUT) | TAKES(OPTION_FROM) | TAKES(OPTION_ONLY) | TAKES(OPTION_QUADWORDS) | TAKES(OPTION_UNFINISHED), true, command_report,
     "report RESULT BOARD.. -o PAGE [--from RESULT] [--only PARTS] [--quadwords A-B] [--unfinished]",
     "Writes the comparison of boards with a result as one HTML page, to be looked at, printed on A4 and kept: verdicts, files with\n"
     "their SHA-256, the answer and the counts of RESULT, the first differences, maps of the memories and a plot of\n"
     "board minus result.\n"
     "  --from RESULT  the memories that the transfer began with, zeros otherwise; the maps show what it left as it was\n"
     "  --only PARTS   compares these alone, as compare does\n"
     "  --quadwords A-B  compares these of data memory alone, as compare does; the maps show all\n"
     "  --unfinished   compares also where RESULT is of a run that did not end with done (0)\n"},
    {"totals", 1, SIZE_MAX, 2, TAKES(OPTION_NEW) | TAKES(OPTION_ALLOWANCE) | TAKES(OPTION_JSON), false, command_totals,
     "totals FILE [add RESULT or CAPTURE.. [--new] [--allowance N]] [--json]",
     "Keeps exact sums over many runs: QWC by tag ID, VIF words taken, NOPs and packets closed, and shows them with the NOP share,\n"
     "NOPs over VIF words in lowest terms (0/1 where there are none).\n"
     "  add            adds runs: of a result its last one, of a capture each, which it runs for that; whatever their answers\n"
     "  --new          begins new totals; without it FILE has to be there\n"
     "  --allowance N  the step allowance of each run of a capture, in place of the capture's\n"
     "  --json         prints JSON\n"
     "All files are added or none: where one cannot be read, or a sum would pass 2^64 - 1 (54), FILE stays as it was.\n"
     "A VIF word is a step of one word, of either unit, tag words and payload included; a NOP is one that is decoded as that code.\n"
     "A sheet's meaning and a board's own dumps have no such counts.\n"},
    {"import", 0, 0, 0, TAKES(OPTION_OUTPUT) | PART_FILES, true, command_import,
     "import -o RESULT [--data FILE] [--code FILE] [--data0 FILE] [--code0 FILE] [--log FILE]",
     "Makes a result of a board's own dumps, any of the five: the bytes of VIF1's data and code memory (16,384 each), of VIF0's\n"
     "(--data0, --code0; 4,096 each) and of the log, whole entries of 24: path, register and value, 64 bits each. All are\n"
     "little-endian. The result says which parts it has; its answer and its counts are 0.\n"},
    {"export", 1, 1, 0, TAKES(OPTION_MAIN) | PART_FILES, false, command_export,
     "export FILE [--main FILE] [--data FILE] [--code FILE] [--data0 FILE] [--code0 FILE] [--log FILE]",
     "Writes the memories and the log of a result as such dumps, of the log the entries used; of a capture those that it begins\n"
     "with, and its main memory.\n"},
    {"dump", 1, 2, 2, 0, false, command_dump, "dump [KIND] FILE",
     "Prints a file as text (docs/TEXT.md). KIND is sheet, chain, state, capture, result or totals; it may be left out where the\n"
     "file begins with a mark (sheet, capture, result, totals).\n"},
    {"assemble", 2, 2, 1, TAKES(OPTION_OUTPUT) | TAKES(OPTION_MAIN) | PART_FILES, true, command_assemble,
     "assemble KIND TEXT -o FILE [--main FILE] [--data FILE] [--code FILE] [--data0 FILE] [--code0 FILE] [--log FILE]",
     "Writes the file that a text describes (docs/TEXT.md). KIND is sheet, chain, state, capture, result or totals.\n"
     "  --main FILE, --data FILE, --code FILE, --data0 FILE, --code0 FILE, --log FILE\n"
     "                main memory, VIF1's and VIF0's memories and the log of a capture from a raw file, in place of lines\n"},
};

enum { COMMANDS = sizeof commands / sizeof commands[0] };

static void print_help(FILE *out)
{
    fputs("tejborun: what a DMA transfer leaves in the memories behind VIF0, VIF1 and the GIF\n\nusage:\n", out);
    for (size_t i = 0; i < COMMANDS; i++)
        fprintf(out, "  tejborun %s\n", commands[i].usage);
    fputs("  tejborun help [COMMAND]\n  tejborun --version\n\n"
          "Options may be written as -oFILE, --output FILE or --output=FILE.\n"
          "A file - is standard input, or standard output after -o. Numbers are decimal or 0x hexadecimal.\n" STATUSES,
          out);
}

static const struct command *find_command(const char *name)
{
    for (size_t i = 0; i < COMMANDS; i++)
        if (strcmp(commands[i].name, name) == 0)
            return &commands[i];
    return NULL;
}

static bool is_help(const char *word)
{
    return strcmp(word, "--help") == 0 || strcmp(word, "-h") == 0;
}

/* Whether help is asked for among the words. */
static bool wants_help(int count, char **words)
{
    for (int i = 0; i < count && strcmp(words[i], "--") != 0; i++)
        if (is_help(words[i]))
            return true;
    return false;
}

static int print_command_help(const struct command *command)
{
    printf("usage: tejborun %s\n%s" STATUSES, command->usage, command->help);
    return STATUS_DONE;
}

/* Does a command; where its output is standard output, nothing else is written there. */
static int call(const struct command *command, int count, char **words)
{
    struct words_given given;
    int status = take_words(command, count, words, &given);
    if (status != STATUS_DONE)
        return status;
    if (given.option[OPTION_OUTPUT] != NULL && is_dash(given.option[OPTION_OUTPUT]))
        say_to(stderr);
    status = command->call(&given);
    free(given.word);
    return status;
}

static int unknown_command(const char *name)
{
    char known[256] = "";
    for (size_t i = 0; i < COMMANDS; i++) {
        strcat(known, i > 0 ? ", " : "");
        strcat(known, commands[i].name);
    }
    return complain(name, "no such command; known are %s; see tejborun --help", known);
}

static int print_version(void)
{
    printf("tejborun %s\nproof: %s\nlibrary: SHA-256 %s\n", TEJBORUN_VERSION, proof_identity(), library_sum());
    return STATUS_DONE;
}

/* Help on all, or on one command. */
static int help(int count, char **words)
{
    if (count > 1)
        return complain("help", "too many words\nusage: tejborun help [COMMAND]");
    const struct command *command = count > 0 ? find_command(words[0]) : NULL;
    if (count > 0)
        return command != NULL ? print_command_help(command) : unknown_command(words[0]);
    print_help(stdout);
    return STATUS_DONE;
}

static int perform(int count, char **words)
{
    if (count == 0) {
        print_help(stderr);
        return STATUS_BAD;
    }
    if (is_help(words[0]) || strcmp(words[0], "help") == 0)
        return help(count - 1, words + 1);
    if (strcmp(words[0], "--version") == 0)
        return print_version();
    const struct command *command = find_command(words[0]);
    if (command == NULL)
        return unknown_command(words[0]);
    return wants_help(count - 1, words + 1) ? print_command_help(command) : call(command, count - 1, words + 1);
}

int main(int count, char **words)
{
    signal(SIGXFSZ, SIG_IGN); /* a write beyond a file's limit then fails, and is cleaned up */
    int status = perform(count > 0 ? count - 1 : 0, words + 1);
    if (fflush(stdout) != 0 || ferror(stdout))
        return complain("standard output", "cannot be written: %s", strerror(errno));
    return status;
}
