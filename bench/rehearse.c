/*
 * rehearse.c: the rehearse program of document 01 in plain C11.
 *
 * Written from document 01 and docs/DECISIONS.md, without a look
 * at the proved program, for two uses: an independent check of every answer, and
 * the baseline of the speed ratio. It reads a session on standard input and
 * prints `ok N` or `no N` for each order, then the closing report. Records lie
 * in a post of 65,536 bytes in the house format; a carry reads one back, judges
 * it and lets the addressee act on it. Nothing here is proved.
 *
 *     gcc -std=c11 -O2 -Wall -Wextra -o rehearse rehearse.c
 */
#include <stdbool.h>
#include <stdint.h>
#include <stdio.h>
#include <stdlib.h>
#include <string.h>

enum {
    SIZE = 3, QUORUM = 2,               /* boxes in a district, and enough of them */
    MAX_DISTRICTS = 4, MAX_BOXES = SIZE * MAX_DISTRICTS, MAX_JOBS = 64,
    MAX_TIME = 1000000, MAX_NUMBER = 65535,
    NO_JOB = 255,                       /* the job byte of kinds 5 to 8 */
    POST_BYTES = 65536, POST_RECORDS = POST_BYTES / 8,  /* the shortest has 8 bytes */
    TRAY_BYTES = 4096, TRAY_RECORDS = MAX_JOBS * SIZE,  /* one order: at most 4,032 */
    LINE_BYTES = 31, MAX_DIGITS = 9
};

enum answer {
    DONE = 0, BAD_PLAN = 1, BAD_LAYOUT = 3, BAD_VALUE = 4, NOT_NAMED = 6, BAD_STATUS = 7,
    BAD_BALLOT = 8, ALREADY = 9, AT_LIMIT = 10, NO_SUCH = 11, POST_FULL = 12
};

enum kind {
    MULTICAST = 1, ACCEPT, ACCEPT_ACK, DELIVER, NEWLEADER, NEWLEADER_ACK, NEW_STATE, NEWSTATE_ACK
};

enum phase { START, PROPOSED, ACCEPTED, COMMITTED };
enum status { FOLLOWER, LEADER, RECOVERING };

/*
 * Both are held as the number that their bytes in a record make, big end
 * first. So 0 is "none", and the order of numbers is the order of the document.
 */
typedef uint64_t stamp;                 /* time, then one byte of district */
typedef uint32_t ballot;                /* number, then one byte of box */

struct row { uint8_t phase; stamp local, global; };
struct kept { ballot ballot; stamp stamp; };
struct entry { uint8_t job; stamp stamp; };

struct plan {
    bool bad;                           /* a plan line had a number out of range */
    unsigned districts, jobs;
    uint8_t mask[MAX_JOBS];
};

struct record {
    uint8_t kind, from, to, job;
    ballot ballot[MAX_DISTRICTS];
    stamp stamp[2];
    const struct row *table;            /* kinds 6 and 7 */
};

struct vote { bool here; uint8_t voter; ballot cballot; unsigned clock; struct row table[MAX_JOBS]; };

struct box {
    uint8_t number, district, status;
    unsigned clock;
    ballot ballot, cballot;
    struct row table[MAX_JOBS];
    bool sent[MAX_JOBS];
    unsigned listed;
    struct entry list[MAX_JOBS];
    struct {                            /* lost by a cut */
        struct kept kept[MAX_JOBS][MAX_DISTRICTS];
        uint16_t marks[MAX_JOBS];       /* bit p: box p acknowledged */
        struct vote vote;
    } v;
};

/* What one order writes, before it goes to the post; and the post. */
struct tray { unsigned records; size_t used, end[TRAY_RECORDS]; uint8_t bytes[TRAY_BYTES]; };
struct post { unsigned records; size_t used, end[POST_RECORDS]; uint8_t bytes[POST_BYTES]; };

struct rehearsal {
    struct plan plan;
    bool has_districts, has_order;
    struct box box[MAX_BOXES];
    struct box before;                  /* the box before a step that may not fit */
    struct tray tray;
    struct post post;
};

/* ---- stamps, ballots, the plan ---- */

static stamp make_stamp(unsigned time, unsigned district) { return (stamp)time << 8 | district; }
static unsigned time_of(stamp s) { return (unsigned)(s >> 8); }
static unsigned district_of(stamp s) { return (unsigned)(s & 255); }
static unsigned number_of(ballot b) { return b >> 8; }
static unsigned box_of(ballot b) { return b & 255; }

static unsigned boxes(const struct plan *plan) { return SIZE * plan->districts; }

static bool names(const struct plan *plan, unsigned job, unsigned district) {
    return plan->mask[job] >> district & 1;
}

static bool plan_is_sound(const struct plan *plan) {
    return !plan->bad && plan->districts > 0 && plan->jobs > 0;
}

/* ---- the house format ---- */

/* Section counts by kind; ACCEPT_ACK has a ballot for each district instead. */
static const struct { uint8_t ballots, stamps; bool table; } shapes[] = {
    [MULTICAST] = {0, 0, false}, [ACCEPT] = {1, 1, false},
    [ACCEPT_ACK] = {0, 0, false}, [DELIVER] = {1, 2, false},
    [NEWLEADER] = {1, 0, false}, [NEWLEADER_ACK] = {2, 1, true},
    [NEW_STATE] = {1, 1, true}, [NEWSTATE_ACK] = {1, 0, false}
};

static unsigned ballots_in(const struct plan *plan, unsigned kind) {
    return kind == ACCEPT_ACK ? plan->districts : shapes[kind].ballots;
}

static uint8_t *put(uint8_t *at, uint64_t value, unsigned bytes) {
    while (bytes-- > 0)
        *at++ = (uint8_t)(value >> 8 * bytes);
    return at;
}

static uint64_t get(const uint8_t **at, unsigned bytes) {
    uint64_t value = 0;
    while (bytes-- > 0)
        value = value << 8 | *(*at)++;
    return value;
}

/* Appends one record to the tray. */
static void send_record(struct rehearsal *r, const struct record *rec) {
    unsigned ballots = ballots_in(&r->plan, rec->kind), stamps = shapes[rec->kind].stamps;
    unsigned rows = shapes[rec->kind].table ? r->plan.jobs : 0;
    uint8_t *at = r->tray.bytes + r->tray.used;
    *at++ = 4;
    *at++ = rec->kind;
    *at++ = rec->from;
    *at++ = rec->to;
    *at++ = rec->job;
    *at++ = (uint8_t)ballots;
    for (unsigned i = 0; i < ballots; i++)
        at = put(at, rec->ballot[i], 3);
    *at++ = (uint8_t)stamps;
    for (unsigned i = 0; i < stamps; i++)
        at = put(at, rec->stamp[i], 5);
    *at++ = (uint8_t)rows;
    for (unsigned i = 0; i < rows; i++) {
        *at++ = rec->table[i].phase;
        at = put(at, rec->table[i].local, 5);
        at = put(at, rec->table[i].global, 5);
    }
    r->tray.used = (size_t)(at - r->tray.bytes);
    r->tray.end[r->tray.records++] = r->tray.used;
}

static void send_to_named(struct rehearsal *r, struct record *rec) {
    for (unsigned p = 0; p < boxes(&r->plan); p++) {
        if (names(&r->plan, rec->job, p / SIZE)) {
            rec->to = (uint8_t)p;
            send_record(r, rec);
        }
    }
}

static void send_to_district(struct rehearsal *r, struct record *rec, bool also_self) {
    unsigned first = rec->from / SIZE * SIZE;
    for (unsigned p = first; p < first + SIZE; p++) {
        if (also_self || p != rec->from) {
            rec->to = (uint8_t)p;
            send_record(r, rec);
        }
    }
}

/* Checks kind, section counts and length: all of answer 3. */
static bool layout_fits(const struct plan *plan, const uint8_t *bytes, size_t length) {
    if (length < 8 || bytes[0] != 4 || bytes[1] < MULTICAST || bytes[1] > NEWSTATE_ACK)
        return false;
    size_t ballots = ballots_in(plan, bytes[1]), stamps = shapes[bytes[1]].stamps;
    size_t rows = shapes[bytes[1]].table ? plan->jobs : 0;
    size_t at_stamps = 6 + 3 * ballots, at_table = at_stamps + 1 + 5 * stamps;
    return length == at_table + 1 + 11 * rows && bytes[5] == ballots
        && bytes[at_stamps] == stamps && bytes[at_table] == rows;
}

/* Reads a record whose layout fits; `table` lends the room for its rows. */
static void read_record(const uint8_t *at, struct record *rec, struct row table[MAX_JOBS]) {
    *rec = (struct record){.kind = at[1], .from = at[2], .to = at[3], .job = at[4], .table = table};
    at += 5;
    unsigned ballots = *at++;
    for (unsigned i = 0; i < ballots; i++)
        rec->ballot[i] = (ballot)get(&at, 3);
    unsigned stamps = *at++;
    for (unsigned i = 0; i < stamps; i++)
        rec->stamp[i] = get(&at, 5);
    unsigned rows = *at++;
    for (unsigned i = 0; i < rows; i++) {
        table[i].phase = *at++;
        table[i].local = get(&at, 5);
        table[i].global = get(&at, 5);
    }
}

/* ---- the value rules of records: answer 4 ---- */

static bool ballot_in(ballot b, unsigned district) {
    return number_of(b) > 0 && box_of(b) / SIZE == district;
}

static bool stamp_in(stamp s, unsigned district) {
    return time_of(s) >= 1 && time_of(s) <= MAX_TIME && district_of(s) == district;
}

static bool committed_pair(const struct plan *plan, unsigned job, unsigned district,
                           stamp local, stamp global) {
    unsigned other = district_of(global);
    return stamp_in(local, district) && other < plan->districts && stamp_in(global, other)
        && names(plan, job, other) && global >= local;
}

static bool row_fits(const struct plan *plan, unsigned job, unsigned district, const struct row *row) {
    if (row->phase == START)
        return row->local == 0 && row->global == 0;
    if (row->phase > COMMITTED || !names(plan, job, district))
        return false;
    if (row->phase == COMMITTED)
        return committed_pair(plan, job, district, row->local, row->global);
    return stamp_in(row->local, district) && row->global == 0;
}

static bool clock_and_table_fit(const struct plan *plan, const struct record *rec) {
    unsigned district = rec->from / SIZE;
    if (district_of(rec->stamp[0]) != district || time_of(rec->stamp[0]) > MAX_TIME)
        return false;
    for (unsigned j = 0; j < plan->jobs; j++) {
        if (!row_fits(plan, j, district, &rec->table[j]))
            return false;
        if (rec->kind == NEW_STATE && rec->table[j].phase == PROPOSED)
            return false;
    }
    return true;
}

static bool ack_ballots_fit(const struct plan *plan, const struct record *rec) {
    for (unsigned d = 0; d < plan->districts; d++)
        if (names(plan, rec->job, d) ? !ballot_in(rec->ballot[d], d) : rec->ballot[d] != 0)
            return false;
    return names(plan, rec->job, rec->from / SIZE);
}

/* The rules on job, sender and addressee alone. */
static bool heading_fits(const struct plan *plan, const struct record *rec) {
    unsigned last_sender = rec->kind == MULTICAST ? boxes(plan) : boxes(plan) - 1;
    if (rec->kind <= DELIVER ? rec->job >= plan->jobs : rec->job != NO_JOB)
        return false;
    if (rec->to >= boxes(plan) || rec->from > last_sender)
        return false;
    if (rec->kind >= DELIVER && rec->from / SIZE != rec->to / SIZE)
        return false;
    return rec->kind < NEW_STATE || rec->from != rec->to;
}

static bool values_fit(const struct plan *plan, const struct record *rec) {
    unsigned district = rec->from / SIZE;
    bool answers = rec->kind == NEWLEADER_ACK || rec->kind == NEWSTATE_ACK;
    if (!heading_fits(plan, rec))
        return false;
    if (rec->kind == MULTICAST)
        return true;
    if (rec->kind == ACCEPT_ACK)
        return ack_ballots_fit(plan, rec);
    if (number_of(rec->ballot[0]) == 0 || box_of(rec->ballot[0]) != (answers ? rec->to : rec->from))
        return false;
    switch (rec->kind) {
    case ACCEPT:
        return stamp_in(rec->stamp[0], district) && names(plan, rec->job, district);
    case DELIVER:
        return committed_pair(plan, rec->job, district, rec->stamp[0], rec->stamp[1]);
    case NEWLEADER_ACK:
        return rec->ballot[1] < rec->ballot[0] && clock_and_table_fit(plan, rec)
            && (rec->ballot[1] == 0 || ballot_in(rec->ballot[1], district));
    case NEW_STATE:
        return clock_and_table_fit(plan, rec);
    default:
        return true;
    }
}

/* ---- what each kind does; a step that refuses has changed nothing ---- */

static void raise_clock(struct box *b, unsigned time) {
    if (b->clock < time)
        b->clock = time;
}

static bool is_open(const struct row *row) {
    return row->phase == PROPOSED || row->phase == ACCEPTED;
}

/* Collects the ready jobs by global stamp, then job number. */
static unsigned find_ready(const struct plan *plan, const struct box *b, uint8_t ready[MAX_JOBS]) {
    stamp first_open = UINT64_MAX;
    unsigned n = 0;
    for (unsigned j = 0; j < plan->jobs; j++)
        if (is_open(&b->table[j]) && b->table[j].local < first_open)
            first_open = b->table[j].local;
    for (unsigned j = 0; j < plan->jobs; j++) {
        stamp global = b->table[j].global;
        if (b->table[j].phase != COMMITTED || b->sent[j] || global >= first_open)
            continue;
        unsigned i = n++;
        for (; i > 0 && b->table[ready[i - 1]].global > global; i--)
            ready[i] = ready[i - 1];
        ready[i] = (uint8_t)j;
    }
    return n;
}

static void send_ready(struct rehearsal *r, struct box *b) {
    uint8_t ready[MAX_JOBS];
    unsigned n = find_ready(&r->plan, b, ready);
    for (unsigned i = 0; i < n; i++) {
        const struct row *row = &b->table[ready[i]];
        struct record out = {.kind = DELIVER, .from = b->number, .job = ready[i],
                             .ballot = {b->cballot}, .stamp = {row->local, row->global}};
        send_to_district(r, &out, true);
        b->sent[ready[i]] = true;
    }
}

static enum answer on_multicast(struct rehearsal *r, struct box *b, const struct record *in) {
    struct row *row = &b->table[in->job];
    if (b->status != LEADER)
        return BAD_STATUS;
    if (row->phase == START) {
        if (b->clock >= MAX_TIME)
            return AT_LIMIT;
        b->clock++;
        row->local = make_stamp(b->clock, b->district);
        row->phase = PROPOSED;
    }
    struct record out = {.kind = ACCEPT, .from = b->number, .job = in->job,
                         .ballot = {b->cballot}, .stamp = {row->local}};
    send_to_named(r, &out);
    return DONE;
}

/* Every named district kept, and the own one in the box's cballot. */
static bool all_kept(const struct plan *plan, const struct box *b, unsigned job) {
    for (unsigned d = 0; d < plan->districts; d++)
        if (names(plan, job, d) && b->v.kept[job][d].ballot == 0)
            return false;
    return b->v.kept[job][b->district].ballot == b->cballot;
}

/* The box accepts a job whose ACCEPTs are all there, and tells the leaders. */
static void acknowledge(struct rehearsal *r, struct box *b, unsigned job) {
    struct row *row = &b->table[job];
    const struct kept *kept = b->v.kept[job];
    struct record out = {.kind = ACCEPT_ACK, .from = b->number, .job = (uint8_t)job};
    if (row->phase != COMMITTED) {
        row->phase = ACCEPTED;
        row->local = kept[b->district].stamp;
    }
    for (unsigned d = 0; d < r->plan.districts; d++) {
        if (names(&r->plan, job, d)) {
            raise_clock(b, time_of(kept[d].stamp));
            out.ballot[d] = kept[d].ballot;
        }
    }
    for (unsigned d = 0; d < r->plan.districts; d++) {
        if (names(&r->plan, job, d)) {
            out.to = (uint8_t)box_of(kept[d].ballot);
            send_record(r, &out);
        }
    }
}

static enum answer on_accept(struct rehearsal *r, struct box *b, const struct record *in) {
    unsigned from = in->from / SIZE;
    struct kept *kept = &b->v.kept[in->job][from];
    if (b->status == RECOVERING)
        return BAD_STATUS;
    if (from == b->district ? in->ballot[0] != b->cballot : in->ballot[0] < kept->ballot)
        return BAD_BALLOT;
    if (in->ballot[0] == kept->ballot && in->stamp[0] != kept->stamp)
        return BAD_BALLOT;
    if (in->ballot[0] != kept->ballot) {
        *kept = (struct kept){in->ballot[0], in->stamp[0]};
        b->v.marks[in->job] = 0;
    }
    if (all_kept(&r->plan, b, in->job))
        acknowledge(r, b, in->job);
    return DONE;
}

/* The own mark, and a quorum of marks in every named district. */
static bool enough_marks(const struct plan *plan, const struct box *b, unsigned job) {
    unsigned marks = b->v.marks[job];
    for (unsigned d = 0; d < plan->districts; d++) {
        unsigned count = 0;
        for (unsigned p = SIZE * d; p < SIZE * (d + 1); p++)
            count += marks >> p & 1;
        if (names(plan, job, d) && count < QUORUM)
            return false;
    }
    return marks >> b->number & 1;
}

static void commit(const struct plan *plan, struct box *b, unsigned job) {
    struct row *row = &b->table[job];
    const struct kept *kept = b->v.kept[job];
    row->phase = COMMITTED;
    row->local = row->global = kept[b->district].stamp;
    for (unsigned d = 0; d < plan->districts; d++)
        if (names(plan, job, d) && kept[d].stamp > row->global)
            row->global = kept[d].stamp;
}

static enum answer on_accept_ack(struct rehearsal *r, struct box *b, const struct record *in) {
    unsigned mark = 1u << in->from;
    if (b->status != LEADER)
        return BAD_STATUS;
    for (unsigned d = 0; d < r->plan.districts; d++)
        if (names(&r->plan, in->job, d) && in->ballot[d] != b->v.kept[in->job][d].ballot)
            return BAD_BALLOT;
    if (in->ballot[b->district] != b->cballot)
        return BAD_BALLOT;
    if (b->table[in->job].phase == COMMITTED || (b->v.marks[in->job] & mark))
        return ALREADY;
    b->v.marks[in->job] |= (uint16_t)mark;
    if (enough_marks(&r->plan, b, in->job)) {
        commit(&r->plan, b, in->job);
        send_ready(r, b);
    }
    return DONE;
}

static bool on_list(const struct box *b, unsigned job) {
    for (unsigned i = 0; i < b->listed; i++)
        if (b->list[i].job == job)
            return true;
    return false;
}

static enum answer on_deliver(struct box *b, const struct record *in) {
    stamp local = in->stamp[0], global = in->stamp[1];
    if (b->status == RECOVERING)
        return BAD_STATUS;
    if (in->ballot[0] != b->cballot)
        return BAD_BALLOT;
    if (on_list(b, in->job) || (b->listed > 0 && global <= b->list[b->listed - 1].stamp))
        return ALREADY;
    b->table[in->job] = (struct row){COMMITTED, local, global};
    raise_clock(b, time_of(global));
    b->list[b->listed++] = (struct entry){in->job, global};
    return DONE;
}

static enum answer on_newleader(struct rehearsal *r, struct box *b, const struct record *in) {
    if (in->ballot[0] <= b->ballot)
        return BAD_BALLOT;
    b->status = RECOVERING;
    b->ballot = in->ballot[0];
    b->v.vote.here = false;
    struct record out = {.kind = NEWLEADER_ACK, .from = b->number, .to = in->from, .job = NO_JOB,
                         .ballot = {b->ballot, b->cballot},
                         .stamp = {make_stamp(b->clock, b->district)}, .table = b->table};
    send_record(r, &out);
    return DONE;
}

/* The merged row of two voters, the one with the lower box number first;
 * accepted counts only at a voter of the highest cballot. */
static struct row merge_row(const struct row *a, bool a_counts, const struct row *b, bool b_counts) {
    if (a->phase == COMMITTED)
        return *a;
    if (b->phase == COMMITTED)
        return *b;
    if (a->phase == ACCEPTED && a_counts)
        return *a;
    if (b->phase == ACCEPTED && b_counts)
        return *b;
    return (struct row){.phase = START};
}

static void merge(const struct plan *plan, struct box *b, const struct record *in) {
    const struct vote *vote = &b->v.vote;
    bool vote_counts = vote->cballot >= in->ballot[1], in_counts = in->ballot[1] >= vote->cballot;
    for (unsigned j = 0; j < plan->jobs; j++) {
        const struct row *voted = &vote->table[j], *now = &in->table[j];
        b->table[j] = vote->voter < in->from ? merge_row(voted, vote_counts, now, in_counts)
                                             : merge_row(now, in_counts, voted, vote_counts);
        b->sent[j] = false;
    }
    b->clock = vote->clock;
    raise_clock(b, time_of(in->stamp[0]));
    b->cballot = b->ballot;
    b->v.vote.here = false;
}

static enum answer on_newleader_ack(struct rehearsal *r, struct box *b, const struct record *in) {
    struct vote *vote = &b->v.vote;
    if (b->status != RECOVERING)
        return BAD_STATUS;
    if (in->ballot[0] != b->ballot)
        return BAD_BALLOT;
    if (b->cballot == b->ballot || (vote->here && vote->voter == in->from))
        return ALREADY;
    if (!vote->here) {
        vote->here = true;
        vote->voter = in->from;
        vote->cballot = in->ballot[1];
        vote->clock = time_of(in->stamp[0]);
        memcpy(vote->table, in->table, r->plan.jobs * sizeof in->table[0]);
        return DONE;
    }
    merge(&r->plan, b, in);
    struct record out = {.kind = NEW_STATE, .from = b->number, .job = NO_JOB, .ballot = {b->ballot},
                         .stamp = {make_stamp(b->clock, b->district)}, .table = b->table};
    send_to_district(r, &out, false);
    return DONE;
}

static enum answer on_new_state(struct rehearsal *r, struct box *b, const struct record *in) {
    if (b->status != RECOVERING)
        return BAD_STATUS;
    if (in->ballot[0] != b->ballot)
        return BAD_BALLOT;
    b->status = FOLLOWER;
    b->cballot = b->ballot;
    b->clock = time_of(in->stamp[0]);
    memcpy(b->table, in->table, r->plan.jobs * sizeof in->table[0]);
    struct record out = {.kind = NEWSTATE_ACK, .from = b->number, .to = in->from, .job = NO_JOB,
                         .ballot = {b->ballot}};
    send_record(r, &out);
    return DONE;
}

static enum answer on_newstate_ack(struct rehearsal *r, struct box *b, const struct record *in) {
    if (b->status != RECOVERING)
        return BAD_STATUS;
    if (in->ballot[0] != b->ballot || in->ballot[0] != b->cballot)
        return BAD_BALLOT;
    b->status = LEADER;
    send_ready(r, b);
    return DONE;
}

static enum answer receive(struct rehearsal *r, struct box *b, const struct record *in) {
    if (in->kind <= DELIVER && !names(&r->plan, in->job, b->district))
        return NOT_NAMED;
    switch (in->kind) {
    case MULTICAST:     return on_multicast(r, b, in);
    case ACCEPT:        return on_accept(r, b, in);
    case ACCEPT_ACK:    return on_accept_ack(r, b, in);
    case DELIVER:       return on_deliver(b, in);
    case NEWLEADER:     return on_newleader(r, b, in);
    case NEWLEADER_ACK: return on_newleader_ack(r, b, in);
    case NEW_STATE:     return on_new_state(r, b, in);
    default:            return on_newstate_ack(r, b, in);
    }
}

/* ---- the orders, and the post ---- */

/* Moves the tray to the post, all of it or nothing. */
static enum answer tray_to_post(struct rehearsal *r) {
    struct post *post = &r->post;
    if (r->tray.used > POST_BYTES - post->used)
        return POST_FULL;
    memcpy(post->bytes + post->used, r->tray.bytes, r->tray.used);
    for (unsigned i = 0; i < r->tray.records; i++)
        post->end[post->records++] = post->used + r->tray.end[i];
    post->used += r->tray.used;
    return DONE;
}

static enum answer multicast_from(struct rehearsal *r, unsigned from, unsigned job) {
    struct record out = {.kind = MULTICAST, .from = (uint8_t)from, .job = (uint8_t)job};
    send_to_named(r, &out);
    return tray_to_post(r);
}

static enum answer order_post(struct rehearsal *r, unsigned job) {
    return job < r->plan.jobs ? multicast_from(r, boxes(&r->plan), job) : NO_SUCH;
}

static enum answer order_retry(struct rehearsal *r, unsigned p, unsigned job) {
    if (p >= boxes(&r->plan) || job >= r->plan.jobs)
        return NO_SUCH;
    if (!names(&r->plan, job, p / SIZE))
        return NOT_NAMED;
    return is_open(&r->box[p].table[job]) ? multicast_from(r, p, job) : ALREADY;
}

static enum answer order_stand(struct rehearsal *r, unsigned p) {
    if (p >= boxes(&r->plan))
        return NO_SUCH;
    unsigned number = number_of(r->box[p].ballot);
    if (number >= MAX_NUMBER)
        return AT_LIMIT;
    struct record out = {.kind = NEWLEADER, .from = (uint8_t)p, .job = NO_JOB,
                         .ballot = {(number + 1) << 8 | p}};
    send_to_district(r, &out, true);
    return tray_to_post(r);
}

static enum answer order_cut(struct rehearsal *r, unsigned p) {
    if (p >= boxes(&r->plan))
        return NO_SUCH;
    memset(&r->box[p].v, 0, sizeof r->box[p].v);
    return DONE;
}

static enum answer order_carry(struct rehearsal *r, unsigned k) {
    if (k >= r->post.records)
        return NO_SUCH;
    size_t begin = k == 0 ? 0 : r->post.end[k - 1];
    struct row table[MAX_JOBS];
    struct record in;
    if (!layout_fits(&r->plan, r->post.bytes + begin, r->post.end[k] - begin))
        return BAD_LAYOUT;
    read_record(r->post.bytes + begin, &in, table);
    if (!values_fit(&r->plan, &in))
        return BAD_VALUE;
    struct box *b = &r->box[in.to];     /* so answer 5 never comes */
    if (POST_BYTES - r->post.used < TRAY_BYTES)
        r->before = *b;                 /* else all that it writes will fit */
    enum answer answer = receive(r, b, &in);
    if (answer == DONE && tray_to_post(r) == POST_FULL) {
        *b = r->before;
        return POST_FULL;
    }
    return answer;
}

/* ---- lines ---- */

enum verb { DISTRICTS, JOB, POST, STAND, RETRY, CUT, CARRY, VERBS };

static const struct { const char *word; unsigned numbers; } verbs[VERBS] = {
    {"districts", 1}, {"job", 1}, {"post", 1}, {"stand", 1}, {"retry", 2}, {"cut", 1}, {"carry", 1}
};

struct line { enum verb verb; unsigned number[2]; };
struct text { size_t length; char bytes[LINE_BYTES + 1]; };     /* full: too long */
struct input { size_t next, filled; unsigned char bytes[1 << 15]; };

static int next_byte(struct input *in) {
    if (in->next == in->filled) {
        in->next = 0;
        in->filled = fread(in->bytes, 1, sizeof in->bytes, stdin);
        if (in->filled == 0)
            return EOF;
    }
    return in->bytes[in->next++];
}

/* Reads one line without its LF; false if nothing is left. */
static bool next_line(struct input *in, struct text *text) {
    int c = next_byte(in);
    text->length = 0;
    if (c == EOF)
        return false;
    for (; c != '\n' && c != EOF; c = next_byte(in))
        if (text->length <= LINE_BYTES)
            text->bytes[text->length++] = (char)c;
    return true;
}

/* Reads a space and 1 to 9 digits; the place behind them, or 0 if not there. */
static size_t parse_number(const struct text *text, size_t at, unsigned *number) {
    if (at >= text->length || text->bytes[at] != ' ')
        return 0;
    size_t first = ++at;
    *number = 0;
    for (; at < text->length && text->bytes[at] >= '0' && text->bytes[at] <= '9'; at++) {
        if (at - first == MAX_DIGITS)
            return 0;
        *number = *number * 10 + (unsigned)(text->bytes[at] - '0');
    }
    return at > first ? at : 0;
}

static bool parse_line(const struct text *text, struct line *line) {
    if (text->length > LINE_BYTES)
        return false;
    for (unsigned verb = 0; verb < VERBS; verb++) {
        size_t at = strlen(verbs[verb].word);
        if (text->length < at || memcmp(text->bytes, verbs[verb].word, at) != 0)
            continue;
        line->verb = (enum verb)verb;
        for (unsigned i = 0; i < verbs[verb].numbers; i++) {
            at = parse_number(text, at, &line->number[i]);
            if (at == 0)
                return false;
        }
        return at == text->length;
    }
    return false;
}

/* ---- the program ---- */

static void set_districts(struct rehearsal *r, unsigned number) {
    r->has_districts = true;
    if (number < 1 || number > MAX_DISTRICTS) {
        r->plan.bad = true;
        return;
    }
    r->plan.districts = number;
    for (unsigned p = 0; p < boxes(&r->plan); p++) {
        r->box[p].number = (uint8_t)p;
        r->box[p].district = (uint8_t)(p / SIZE);
    }
}

static void add_job(struct plan *plan, unsigned mask) {
    if (plan->jobs == MAX_JOBS || mask < 1 || mask >= 1u << plan->districts)
        plan->bad = true;
    else
        plan->mask[plan->jobs++] = (uint8_t)mask;
}

/* Takes a `districts` or `job` line; false if it is misplaced. */
static bool plan_line(struct rehearsal *r, const struct line *line) {
    if (r->has_order || r->has_districts == (line->verb == DISTRICTS))
        return false;
    if (line->verb == DISTRICTS)
        set_districts(r, line->number[0]);
    else
        add_job(&r->plan, line->number[0]);
    return true;
}

static enum answer order_line(struct rehearsal *r, const struct line *line) {
    r->has_order = true;
    r->tray.records = 0;
    r->tray.used = 0;
    if (!plan_is_sound(&r->plan))
        return BAD_PLAN;
    switch (line->verb) {
    case POST:  return order_post(r, line->number[0]);
    case STAND: return order_stand(r, line->number[0]);
    case RETRY: return order_retry(r, line->number[0], line->number[1]);
    case CUT:   return order_cut(r, line->number[0]);
    default:    return order_carry(r, line->number[0]);
    }
}

/* Does what one line says and prints its answer, if it has one. */
static void do_line(struct rehearsal *r, const struct text *text) {
    struct line line;
    enum answer answer = BAD_LAYOUT;
    if (parse_line(text, &line)) {
        bool is_plan = line.verb == DISTRICTS || line.verb == JOB;
        if (is_plan && plan_line(r, &line))
            return;
        if (!is_plan)
            answer = order_line(r, &line);
    }
    if (answer == DONE)
        printf("ok %u\n", r->tray.records);
    else
        printf("no %d\n", (int)answer);
}

/* On the list of at least one box in each named district. */
static bool finished(const struct rehearsal *r, unsigned job) {
    unsigned on = 0;
    for (unsigned p = 0; p < boxes(&r->plan); p++)
        if (on_list(&r->box[p], job))
            on |= 1u << r->box[p].district;
    return (on & r->plan.mask[job]) == r->plan.mask[job];
}

static void report(const struct rehearsal *r) {
    for (unsigned p = 0; p < boxes(&r->plan); p++) {
        printf("box %u list", p);
        for (unsigned i = 0; i < r->box[p].listed; i++)
            printf(" %u", (unsigned)r->box[p].list[i].job);
        printf("\n");
    }
    for (unsigned j = 0; j < r->plan.jobs; j++) {
        unsigned p = 0;
        while (p < boxes(&r->plan) && r->box[p].table[j].phase != COMMITTED)
            p++;
        if (p < boxes(&r->plan))
            printf("job %u %u %u", j, time_of(r->box[p].table[j].global),
                   district_of(r->box[p].table[j].global));
        else
            printf("job %u - -", j);
        printf(" %s\n", finished(r, j) ? "yes" : "no");
    }
}

int main(void) {
    static struct rehearsal r;
    static struct input in;
    struct text text;
    while (next_line(&in, &text))
        do_line(&r, &text);
    if (plan_is_sound(&r.plan))
        report(&r);
    return ferror(stdin) || fflush(stdout) != 0 ? EXIT_FAILURE : EXIT_SUCCESS;
}
