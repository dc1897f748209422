#include "alter.h"

#include <inttypes.h>
#include <string.h>

enum { PUSH = 2 };

enum { BYTE = UINT8_MAX, MOST_VALUES = MOST_WORDS - 2 };

/* A count or a height of the block: where it stands, its limit, and what it was before it was raised past that. */
struct length {
    uint8_t *at;
    uint8_t *before;
    unsigned limit;
};

/* The block in work, and what its lengths were that are past their limits now. */
static struct garvolish_block *block;
static struct {
    uint8_t count;
    uint8_t sizes[GARVOLISH_JOBS];
    uint8_t heights[GARVOLISH_JOBS];
    uint8_t writes[GARVOLISH_JOBS];
    uint8_t reads[GARVOLISH_JOBS];
    uint8_t checkpoint_heights[GARVOLISH_JOBS * GARVOLISH_FEW];
} before;
static int count_was_lowered;

void alter_from(struct garvolish_block *opened)
{
    block = opened;
    count_was_lowered = 0;
}

/* ---- lengths */

static struct length jobs(void)
{
    return (struct length){&block->count, &before.count, GARVOLISH_JOBS};
}

static struct length size(size_t job)
{
    return (struct length){&block->jobs[job].size, &before.sizes[job], GARVOLISH_INSTRUCTIONS};
}

static struct length height(size_t job)
{
    return (struct length){&block->states[job].stack.height, &before.heights[job], GARVOLISH_STACK};
}

static struct length writes(size_t job)
{
    return (struct length){&block->journals[job].size, &before.writes[job], GARVOLISH_FEW};
}

static struct length reads(size_t job)
{
    return (struct length){&block->reads[job].size, &before.reads[job], GARVOLISH_FEW};
}

static struct length checkpoint_height(size_t slot)
{
    return (struct length){&block->checkpoints[slot].state.stack.height, &before.checkpoint_heights[slot],
                           GARVOLISH_STACK};
}

static unsigned held(struct length length)
{
    return *length.at <= length.limit ? *length.at : *length.before;
}

unsigned jobs_held(void)
{
    return held(jobs());
}

/* What stands past a count never shows: it is lowered, or raised past its limit. */
static void set_length(struct length length, uint64_t to)
{
    unsigned most = held(length);
    if (to > most && to <= length.limit) {
        no_call("a number from 0 to %u or from %u to 255, and not %" PRIu64, most, length.limit + 1, to);
    }
    *length.before = (uint8_t)most;
    *length.at = (uint8_t)to;
}

/* A number from 0 among those that there are. */
static size_t among(uint64_t number, unsigned count, const char *what)
{
    if (number >= count) {
        no_call("one of the %u %s, and not number %" PRIu64 " from 0", count, what, number);
    }
    return (size_t)number;
}

/* The job of a ticket. */
static size_t job_of(uint64_t ticket)
{
    if (ticket == 0 || ticket > jobs_held()) {
        no_call("one of the block's %u tickets, and not %" PRIu64, jobs_held(), ticket);
    }
    return (size_t)ticket - 1;
}

static size_t entry_of(size_t job, uint64_t number)
{
    return among(number, held(writes(job)), "journal entries");
}

static size_t read_of(size_t job, uint64_t number)
{
    return among(number, held(reads(job)), "listed reads");
}

/* ---- versions, which the block may keep in any order */

static uint8_t *numbers_of(struct garvolish_versions *versions)
{
    return versions->numbers;
}

/* Where the version stands that is the k-th in the order of the entries. */
static uint8_t *version_of(size_t job, uint64_t k)
{
    unsigned count = block->versions[job].size;
    uint8_t *numbers = numbers_of(&block->versions[job]);
    size_t rank = among(k, count, "versions");
    for (unsigned at = 0; at < count; at++) {
        size_t lower = 0;
        for (unsigned other = 0; other < count; other++) {
            lower += numbers[other] < numbers[at] || (numbers[other] == numbers[at] && other < at);
        }
        if (lower == rank) {
            return &numbers[at];
        }
    }
    return numbers;
}

static void must_have_no_two_versions(size_t job)
{
    const struct garvolish_entry *entries = block->journals[job].entries;
    const uint8_t *numbers = numbers_of(&block->versions[job]);
    unsigned count = block->versions[job].size, entries_held = held(writes(job));
    for (unsigned one = 0; one < count; one++) {
        for (unsigned other = 0; other < one; other++) {
            int both = numbers[one] < entries_held && numbers[other] < entries_held;
            if (both && entries[numbers[one]].cell == entries[numbers[other]].cell) {
                no_call("no two versions of cell %u", (unsigned)entries[numbers[one]].cell);
            }
        }
    }
}

static void must_have_no_two_values(size_t job)
{
    const struct garvolish_read *list = block->reads[job].reads;
    unsigned count = held(reads(job));
    for (unsigned one = 0; one < count; one++) {
        for (unsigned other = 0; other < one; other++) {
            if (list[one].cell == list[other].cell && list[one].value != list[other].value) {
                no_call("no two listed reads of cell %u with two values", (unsigned)list[one].cell);
            }
        }
    }
}

/* ---- the parts, each with the values of its form */

static void alter_count(const uint64_t *v)
{
    unsigned most = jobs_held();
    if (count_was_lowered && v[0] > most) {
        no_call("a number from 0 to %u, for the number of jobs was lowered", most);
    }
    set_length(jobs(), v[0]);
    count_was_lowered |= v[0] < most;
}

static void alter_size(const uint64_t *v) { set_length(size(job_of(v[0])), v[1]); }
static void alter_height(const uint64_t *v) { set_length(height(job_of(v[0])), v[1]); }
static void alter_writes(const uint64_t *v) { set_length(writes(job_of(v[0])), v[1]); }
static void alter_reads(const uint64_t *v) { set_length(reads(job_of(v[0])), v[1]); }

/* The operand of a PUSH stands in pushed, every other in arguments: it goes where its code wants it. */
static void set_instruction(struct garvolish_job *job, size_t place, uint8_t code, uint64_t operand)
{
    if (code != PUSH && operand > BYTE) {
        no_call("an operand below 256, for the code is not PUSH's");
    }
    job->codes[place] = code;
    if (code == PUSH) {
        job->pushed[place] = operand;
    } else {
        job->arguments[place] = (uint8_t)operand;
    }
}

static size_t place_of(size_t job, uint64_t number)
{
    return among(number, held(size(job)), "instructions");
}

static void alter_code(const uint64_t *v)
{
    struct garvolish_job *job = &block->jobs[job_of(v[0])];
    size_t place = place_of(job_of(v[0]), v[1]);
    uint64_t operand = job->codes[place] == PUSH ? job->pushed[place] : job->arguments[place];
    set_instruction(job, place, (uint8_t)v[2], operand);
}

static void alter_operand(const uint64_t *v)
{
    struct garvolish_job *job = &block->jobs[job_of(v[0])];
    size_t place = place_of(job_of(v[0]), v[1]);
    set_instruction(job, place, job->codes[place], v[2]);
}

static void alter_place(const uint64_t *v) { block->states[job_of(v[0])].place = (uint8_t)v[1]; }
static void alter_status(const uint64_t *v) { block->status[job_of(v[0])] = (uint8_t)v[1]; }
static void alter_mark(const uint64_t *v) { block->reads[job_of(v[0])].mark = (uint8_t)v[1]; }

static void alter_entry(const uint64_t *v)
{
    size_t job = job_of(v[0]);
    struct garvolish_entry *entry = &block->journals[job].entries[entry_of(job, v[1])];
    entry->cell = (uint16_t)v[2];
    entry->value = v[3];
    must_have_no_two_versions(job);
}

static void alter_read(const uint64_t *v)
{
    size_t job = job_of(v[0]);
    struct garvolish_read *read = &block->reads[job].reads[read_of(job, v[1])];
    read->cell = (uint16_t)v[2];
    read->source = (uint8_t)v[3];
    read->value = v[4];
    must_have_no_two_values(job);
}

static void alter_version(const uint64_t *v)
{
    size_t job = job_of(v[0]);
    *version_of(job, v[1]) = (uint8_t)v[2];
    must_have_no_two_versions(job);
}

static void alter_checkpoint(const uint64_t *v)
{
    size_t job = job_of(v[0]);
    size_t slot = job * GARVOLISH_FEW + read_of(job, v[1]);
    struct garvolish_checkpoint *checkpoint = &block->checkpoints[slot];
    set_length(checkpoint_height(slot), v[3]);
    checkpoint->state.place = (uint8_t)v[2];
    checkpoint->writes = (uint8_t)v[4];
    checkpoint->listed = (uint8_t)v[5];
}

/* ---- the table of parts: CELL is up to 65,535, VALUE below 2^64, all others up to 255 */

static const struct part {
    const char *form;
    void (*alter)(const uint64_t *v);
} parts[] = {
    {"count V", alter_count},
    {"size T V", alter_size},
    {"code T P V", alter_code},
    {"operand T P VALUE", alter_operand},
    {"place T V", alter_place},
    {"height T V", alter_height},
    {"status T V", alter_status},
    {"entry T K CELL VALUE", alter_entry},
    {"writes T V", alter_writes},
    {"read T K CELL SOURCE VALUE", alter_read},
    {"reads T V", alter_reads},
    {"mark T V", alter_mark},
    {"version T K V", alter_version},
    {"checkpoint T K PLACE HEIGHT WRITES LISTED", alter_checkpoint},
};

/* The largest number that the value may be whose name begins here in a form. */
static uint64_t most_of(const char *name)
{
    if (strncmp(name, "CELL", strlen("CELL")) == 0) {
        return UINT16_MAX;
    }
    return strncmp(name, "VALUE", strlen("VALUE")) == 0 ? UINT64_MAX : BYTE;
}

static void alter_part(const struct part *part, const struct line *line)
{
    uint64_t values[MOST_VALUES];
    const char *name = part->form;
    if (line->count != 1 + words_of(part->form)) {
        no_call("`alter %s`", part->form);
    }
    for (size_t value = 0; value + 2 < line->count; value++) {
        name = strchr(name, ' ') + 1;
        values[value] = number_in(line->words[value + 2], most_of(name));
    }
    part->alter(values);
}

void alter(const struct line *line)
{
    for (size_t part = 0; line->count > 1 && part < sizeof parts / sizeof parts[0]; part++) {
        if (has_name(parts[part].form, line->words[1])) {
            alter_part(&parts[part], line);
            return;
        }
    }
    no_call("`alter` with count, size, code, operand, place, height, status, entry, writes, read, reads, mark, version or "
            "checkpoint");
}
