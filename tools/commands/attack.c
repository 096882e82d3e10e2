/* flow attack: one script, played to a table from two states; does it tell them apart? */
#include <inttypes.h>
#include <stdio.h>

#include "commands/command.h"
#include "commands/numbers.h"
#include "commands/open_table.h"
#include "library/refusals.h"
#include "library/runs.h"
#include "library/verdict.h"
#include "records/directives.h"
#include "text/ends.h"
#include "text/faults.h"
#include "text/script.h"
#include "text/script_faults.h"
#include "text/state.h"
#include "text/words.h"

static const char usage[] =
    "flow attack [--rollback] [--harden] [--budget STEPS] [--flag] [--names SOURCE] TABLE SCRIPT STATE STATE\n"
    "  Plays a script to a table that guesses, from two states, and says whether what it shows tells them apart.\n"
    "  SCRIPT is text, as \"force; load 2 0; step\" (also store ARRAY INDEX, and rollback), or @FILE: of text or of records.\n"
    STATE_USAGE
    "  --rollback      on the machine that undoes wrong guesses\n"
    "  --harden        before and after hardening the table; the verdict is that on the hardened one\n"
    BUDGET_USAGE
    NAMING_USAGE
    "  Exit status: 0 one list of observations begins the other; 1 refused; 2 wrong usage, or a file cannot be read;\n"
    "  3 the states are told apart; 4 no verdict, since a run was cut; 5 no verdict, since a directive does not fit.\n";

enum { MOST_PRINTED = 40 }; /* of observations and directives: a run may show thousands */

/* Two runs of a table, one from each state, why they are stuck if they are, and what they say together. */
struct pair {
    const struct open_table *opened;
    const char *whose; /* behind the number of a node: "", or that it is the hardened table's */
    struct run runs[2];
    struct stuck stuck[2];
    struct verdict verdict;
};

struct attack {
    struct naming naming;
    bool rollback, harden;
    uint32_t budget;
    struct open_table original, hardened;
    struct script script;
    struct state states[2];
    struct pair plain, guessing; /* of the original, without guessing and with it */
    struct pair guessing_hardened;
};

/* ---- Runs ---- */

static enum machine machine_of(const struct attack *attack)
{
    return attack->rollback ? MACHINE_ROLLBACK : MACHINE_GUESSING;
}

static void print_refused(const struct attack *attack, const struct open_table *opened, struct answer answer)
{
    if (concern_of(answer.refusal) == CONCERN_SCRIPT)
        print_script_refusal(stderr, &attack->script, attack->rollback);
    else
        print_refusal(stderr, opened->name, &opened->bytes, answer);
}

/* False, with a message: the library refused. */
static bool play(const struct attack *attack, const struct open_table *opened, enum machine machine, struct pair *pair)
{
    const struct buffer *script = &attack->script.directives;
    pair->opened = opened;
    pair->whose = opened == &attack->hardened ? " of the hardened table" : "";
    for (unsigned i = 0; i < 2; i++) {
        struct run *run = &pair->runs[i];
        struct answer answer = run_table(&opened->table, machine, script, &attack->states[i], attack->budget, run);
        if (answer.refusal != FLOW_ACCEPTED) {
            print_refused(attack, opened, answer);
            return false;
        }
        pair->stuck[i] = find_stuck(&opened->table, machine, script, run);
    }
    pair->verdict = compare_runs(pair->runs, pair->stuck);
    return true;
}

/* All runs come before all printing: a refusal stands alone. */
static bool play_all(struct attack *attack)
{
    return play(attack, &attack->original, machine_of(attack), &attack->guessing) &&
           play(attack, &attack->original, MACHINE_PLAIN, &attack->plain) &&
           (!attack->harden || play(attack, &attack->hardened, machine_of(attack), &attack->guessing_hardened));
}

/* The pair whose verdict is that of the attack. */
static const struct pair *deciding_pair(const struct attack *attack)
{
    return attack->harden ? &attack->guessing_hardened : &attack->guessing;
}

static void pair_free(struct pair *pair)
{
    run_free(&pair->runs[0]);
    run_free(&pair->runs[1]);
}

/* ---- Printing ---- */

static void print_end_from(const struct pair *pair, unsigned state)
{
    print_end(stdout, &pair->opened->names, &pair->opened->table, &pair->runs[state], &pair->stuck[state], pair->whose);
    printf("\n");
}

static void print_run(const struct pair *pair, unsigned state)
{
    const struct names *names = &pair->opened->names;
    const struct run *run = &pair->runs[state];
    printf("  state %u: ", state + 1);
    print_end_from(pair, state);
    printf("    steps %" PRIu64 ", directives used %" PRIu64 ", flag %" PRIu64, run->steps, run->directives, run->flag);
    if (run->pending)
        printf(", next node %" PRIu64 "%s", run->next, pair->whose);
    else if (run->end != FLOW_FINISHED)
        printf(", nothing is pending");
    printf("\n");
    print_observations(stdout, "    ", names, &run->observations, MOST_PRINTED);
    print_saves(stdout, "    ", names, &pair->opened->table, &run->saves, run->open_saves);
}

static void print_difference(const struct pair *pair)
{
    const struct names *names = &pair->opened->names;
    const struct verdict *verdict = &pair->verdict;
    printf("  observation %zu: ", verdict->observation);
    print_observation(stdout, names, pair->runs[0].observations.bytes + verdict->at);
    printf(" from state 1, ");
    print_observation(stdout, names, pair->runs[1].observations.bytes + verdict->at);
    printf(" from state 2\n");
}

static void print_verdict(const char *indent, const struct pair *pair)
{
    const struct verdict *verdict = &pair->verdict;
    printf("%sverdict: ", indent);
    if (verdict->kind == VERDICT_TOLD_APART)
        printf("the lists differ at observation %zu: the states are told apart\n", verdict->observation);
    else if (verdict->kind == VERDICT_ALIKE)
        printf("one list of observations begins the other: the states are not told apart\n");
    else {
        printf("none, since the run from state %u %s", verdict->run + 1, verdict->kind == VERDICT_CUT ? "was cut: " : "is ");
        print_end_from(pair, verdict->run);
    }
}

/* Two runs under a heading, and in the end where they first differ. */
static void print_pair(const struct attack *attack, const char *heading, const char *machine, const struct pair *pair)
{
    printf("%s%s:\n", attack->harden ? heading : "", machine);
    for (unsigned i = 0; i < 2; i++)
        print_run(pair, i);
    if (pair->verdict.kind == VERDICT_TOLD_APART)
        print_difference(pair);
}

/* `differs` is what the states differ in that the table labels public, or NULL. */
static void print_agreement(const char *differs)
{
    if (differs == NULL)
        printf("the states agree on what the table labels public\n");
    else
        printf("the states do not agree on what the table labels public: they differ in %s\n", differs);
}

/* A script that was not played to its end, or is shorter than the program, says less than it seems to. */
static void print_unplayed(const struct attack *attack, const struct pair *pair)
{
    size_t all = count_directives(&attack->script.directives, ANY_DIRECTIVE, UINT64_MAX);
    for (unsigned i = 0; i < 2; i++) {
        const struct run *run = &pair->runs[i];
        if (run->end == FLOW_OUT_OF_DIRECTIVES)
            printf("note: from state %u the script is over before the program: a longer one may show more\n", i + 1);
        else if (run->directives < all)
            printf("note: from state %u the run ended with %" PRIu64 " of %zu directives used\n", i + 1, run->directives, all);
    }
}

/* What hardening promises nothing of; and what it promises, should it ever not hold. */
static void print_notes(const struct attack *attack, const char *differs)
{
    static const char promise[] = "hardening promises nothing of such states";
    if (differs != NULL)
        printf("note: the states do not agree on what is public: %s\n", promise);
    if (attack->plain.verdict.kind == VERDICT_TOLD_APART)
        printf("note: the program itself, without guessing, tells the states apart: %s\n", promise);
    if (attack->plain.verdict.kind == VERDICT_CUT)
        printf("note: a run without guessing was cut: whether the program itself tells the states apart is not known\n");
    bool promised = attack->harden && differs == NULL && attack->plain.verdict.kind == VERDICT_ALIKE;
    if (promised && attack->guessing_hardened.verdict.kind == VERDICT_TOLD_APART)
        printf("note: this is against what is proved of hardening: please report this table\n");
}

static void print_attack(const struct attack *attack)
{
    const char *machine = attack->rollback ? "guessing and rolling back" : "guessing";
    const char *differs = public_difference(attack->states, &attack->original.table, &attack->original.names);
    printf("script: ");
    print_directives(stdout, &attack->original.names, &attack->script.directives, MOST_PRINTED);
    printf("\n");
    print_agreement(differs);
    print_pair(attack, "before hardening, ", "without guessing", &attack->plain);
    print_verdict("  ", &attack->plain);
    print_pair(attack, "before hardening, ", machine, &attack->guessing);
    if (attack->harden) {
        print_verdict("  ", &attack->guessing);
        print_pair(attack, "hardened, ", machine, &attack->guessing_hardened);
    }
    if (deciding_pair(attack)->verdict.kind == VERDICT_ALIKE)
        print_unplayed(attack, deciding_pair(attack));
    print_notes(attack, differs);
    print_verdict("", deciding_pair(attack));
}

/* ---- The command ---- */

static int status_of(enum verdict_kind kind)
{
    switch (kind) {
    case VERDICT_ALIKE: return STATUS_DONE;
    case VERDICT_TOLD_APART: return STATUS_TOLD_APART;
    case VERDICT_CUT: return STATUS_CUT;
    default: return STATUS_UNFIT;
    }
}

static bool read_operands(struct attack *attack, char **argv)
{
    static const char *const called[2] = {"first STATE", "second STATE"};
    const struct open_table *original = &attack->original;
    if (!read_script(argv[1], &original->names, &attack->script))
        return false;
    for (unsigned i = 0; i < 2; i++)
        if (!read_state(argv[2 + i], called[i], &original->table, &original->names, state_variables(original, attack->naming),
                        &attack->states[i]))
            return false;
    return true;
}

static int run_opened(struct attack *attack, char **argv)
{
    int status = open_table(&attack->original, argv[0], attack->naming);
    if (status == STATUS_DONE && !read_operands(attack, argv))
        status = STATUS_TROUBLE;
    if (status == STATUS_DONE && attack->harden)
        status = open_hardened(&attack->hardened, &attack->original);
    if (status != STATUS_DONE)
        return status;
    if (!play_all(attack))
        return STATUS_REFUSED;
    print_attack(attack);
    return status_of(deciding_pair(attack)->verdict.kind);
}

static void attack_free(struct attack *attack)
{
    close_table(&attack->original);
    close_table(&attack->hardened);
    script_free(&attack->script);
    state_free(&attack->states[0]);
    state_free(&attack->states[1]);
    pair_free(&attack->plain);
    pair_free(&attack->guessing);
    pair_free(&attack->guessing_hardened);
}

static int run_attack(const struct command *self, int argc, char **argv)
{
    const char *budget = NULL;
    struct attack attack = {0};
    const struct option options[] = {{.name = "--rollback", .given = &attack.rollback},
                                     {.name = "--harden", .given = &attack.harden},
                                     {.name = "--budget", .number = &budget},
                                     {.name = "--flag", .given = &attack.naming.flag},
                                     {.name = "--names", .path = &attack.naming.source},
                                     {0}};
    if (!take_options(self, options, &argc, argv, 4, 4) || !take_budget(self, budget, &attack.budget) ||
        !are_inputs_in_order(self, attack.naming, argc, argv, "-"))
        return STATUS_TROUBLE;
    if (attack.harden && attack.naming.flag)
        return misused(self, "--harden and --flag exclude each other: a table that has a flag is hardened already");
    int status = run_opened(&attack, argv);
    attack_free(&attack);
    return status;
}

const struct command command_attack = {"attack", usage, run_attack};
