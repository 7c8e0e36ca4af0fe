/* Document 01's beam 1 built by a caller: its line, its utilizations and the totals of its bars. Then the schedule on standard
 * input, reported. Then document 01's three members held as records: written, compared with standard input, reported; and
 * what the writer refuses. Then beam 1 as a point-loaded beam, built and held; with
 * Mq up to M and above; with V above what its web bears; of the strongest concrete that there is, and of one beyond. */
#include <inttypes.h>
#include <stdio.h>
#include <string.h>

#include "koxaltes.h"

static const koxaltes_group tension[] = {{.diameter = 20, .bars = 4}};
/* a list of length 0, whose pointer must still not be null */
static const koxaltes_group none[] = {{0, 0}};

static koxaltes_member beam(void) {
    koxaltes_member m = {.mark = 1, .kind = KOXALTES_BEAM};
    m.fields[KOXALTES_BEAM_B] = 250;
    m.fields[KOXALTES_BEAM_H] = 500;
    m.fields[KOXALTES_BEAM_BF] = 250;
    m.fields[KOXALTES_BEAM_AS] = 40;
    m.fields[KOXALTES_BEAM_CONCRETE] = 30;
    m.fields[KOXALTES_BEAM_STEEL] = 1;
    m.fields[KOXALTES_BEAM_TENSION_GROUPS] = 1;
    m.fields[KOXALTES_BEAM_LINK_DIAMETER] = 8;
    m.fields[KOXALTES_BEAM_LEGS] = 2;
    m.fields[KOXALTES_BEAM_LINK_SPACING] = 200;
    m.fields[KOXALTES_BEAM_LINK_STEEL] = 1;
    m.fields[KOXALTES_BEAM_COVER] = 30;
    m.fields[KOXALTES_BEAM_SPAN] = 6000;
    m.fields[KOXALTES_BEAM_M] = 150000;
    m.fields[KOXALTES_BEAM_MQ] = 90000;
    m.fields[KOXALTES_BEAM_V] = 120000;
    m.fields[KOXALTES_BEAM_ENVIRONMENT] = 1;
    return m;
}

static const koxaltes_record records[] = {
    {.mark = 1,
     .kind = KOXALTES_BEAM,
     .fields.beam = {.b = 250,
                     .h = 500,
                     .bf = 250,
                     .tension_distance = 40,
                     .concrete = 30,
                     .steel = 1,
                     .tension_groups = 1,
                     .tension = {{.diameter = 20, .bars = 4}},
                     .link_diameter = 8,
                     .legs = 2,
                     .link_spacing = 200,
                     .link_steel = 1,
                     .cover = 30,
                     .span = 6000,
                     .m = 150000,
                     .mq = 90000,
                     .v = 120000,
                     .environment = 1}},
    {.mark = 2,
     .kind = KOXALTES_COLUMN,
     .fields.column = {.b = 400,
                       .h = 400,
                       .concrete = 30,
                       .steel = 1,
                       .groups = 1,
                       .list = {{.diameter = 20, .bars = 8}},
                       .link_diameter = 8,
                       .link_spacing = 250,
                       .l0 = 4000,
                       .n = 2500000}},
    {.mark = 3,
     .kind = KOXALTES_MESH,
     .fields.mesh = {.family = 1,
                     .concrete = 30,
                     .diameter = 10,
                     .cross_bar = 1,
                     .seismic = 3,
                     .lap = 1,
                     .anchorage_given = 270,
                     .lap_given = 350}},
};

enum { RECORDS = sizeof records / sizeof records[0] };

static void print(koxaltes_answer a, const uint8_t *text) {
    if (a.question == KOXALTES_ACCEPTED) {
        fwrite(text, 1, a.length, stdout);
    } else {
        printf("refused %u member %u\n", a.question, a.member);
    }
}

static void print_utilization(koxaltes_utilization_answer a) {
    if (a.question == KOXALTES_ACCEPTED && a.governs) {
        printf("moment %.3f shear %.3f width %.3f deflection %.3f governing %.3f\n", a.utilization.first,
               a.utilization.second, a.utilization.third, a.utilization.fourth, a.governing);
    }
}

static void print_totals(koxaltes_bar_totals_answer a) {
    if (a.question == KOXALTES_ACCEPTED) {
        printf("bars %" PRIu64 " area %" PRIu64 ".%" PRIu64 " mm2\n", a.bars, a.area / 10, a.area % 10);
    }
}

static void print_written(koxaltes_answer a, const uint8_t *file, const uint8_t *schedule, size_t length) {
    if (a.question != KOXALTES_ACCEPTED) {
        printf("refused %u member %u\n", a.question, a.member);
    } else if (a.length == length && memcmp(file, schedule, length) == 0) {
        printf("written %zu bytes, as read\n", a.length);
    } else {
        printf("written %zu bytes, others than read\n", a.length);
    }
}

static void show_member(uint8_t *out, size_t out_length) {
    koxaltes_member m = beam();
    print(koxaltes_member_report(m, tension, 1, none, 0, out, out_length), out);
    print_utilization(koxaltes_member_utilization(m, tension, 1, none, 0));
    print_totals(koxaltes_bar_totals(tension, 1, 1));
    /* a count above its list: KOXALTES_REFUSED_FIELD */
    m.fields[KOXALTES_BEAM_TENSION_GROUPS] = 2;
    print(koxaltes_member_report(m, tension, 1, none, 0, out, out_length), out);
}

static void show_records(const uint8_t *schedule, size_t length, uint8_t *out, size_t out_length) {
    static uint8_t file[KOXALTES_LONGEST_FILE];
    koxaltes_answer a = koxaltes_write_records(records, RECORDS, file, sizeof file);
    print_written(a, file, schedule, length);
    if (a.question != KOXALTES_ACCEPTED) {
        return;
    }
    print(koxaltes_report(file, a.length, out, out_length), out);
    /* a buffer one byte short: KOXALTES_REFUSED_FILE */
    print_written(koxaltes_write_records(records, RECORDS, file, a.length - 1), file, schedule, length);
    /* more records than a schedule may have, all of zeros: KOXALTES_REFUSED_COUNT */
    static koxaltes_record many[KOXALTES_MOST_MEMBERS + 1];
    print_written(koxaltes_write_records(many, KOXALTES_MOST_MEMBERS + 1, file, sizeof file), file, schedule, length);
}

/* The load is 1000 mm from the support. */
static void show_point_load(uint8_t *out, size_t out_length) {
    static uint8_t file[KOXALTES_LONGEST_FILE];
    koxaltes_member m = beam();
    m.kind = KOXALTES_POINT_LOADED_BEAM;
    m.fields[KOXALTES_BEAM_LOAD_DISTANCE] = 1000;
    print(koxaltes_member_report(m, tension, 1, none, 0, out, out_length), out);
    koxaltes_record r = {.mark = 1, .kind = KOXALTES_POINT_LOADED_BEAM};
    r.fields.point_loaded_beam.beam = records[0].fields.beam;
    r.fields.point_loaded_beam.load_distance = 1000;
    koxaltes_answer a = koxaltes_write_records(&r, 1, file, sizeof file);
    print(a.question == KOXALTES_ACCEPTED ? koxaltes_report(file, a.length, out, out_length) : a, out);
    /* a load beyond the span: KOXALTES_REFUSED_CONSISTENCY */
    r.fields.point_loaded_beam.load_distance = 6001;
    print(koxaltes_write_records(&r, 1, file, sizeof file), file);
}

/* Mq may be as large as M. */
static void show_moments(uint8_t *out, size_t out_length) {
    static uint8_t file[KOXALTES_LONGEST_FILE];
    koxaltes_member m = beam();
    m.fields[KOXALTES_BEAM_M] = m.fields[KOXALTES_BEAM_MQ];
    print(koxaltes_member_report(m, tension, 1, none, 0, out, out_length), out);
    /* one more: KOXALTES_REFUSED_SERVICE_MOMENT */
    m.fields[KOXALTES_BEAM_MQ] += 1;
    print(koxaltes_member_report(m, tension, 1, none, 0, out, out_length), out);
    koxaltes_record r = records[0];
    r.fields.beam.m = records[0].fields.beam.mq;
    r.fields.beam.mq = records[0].fields.beam.m;
    print(koxaltes_write_records(&r, 1, file, sizeof file), file);
}

/* The web crushes: a moment, no shear, neither in the line nor among the utilizations. */
static void show_web(uint8_t *out, size_t out_length) {
    koxaltes_member m = beam();
    m.fields[KOXALTES_BEAM_V] = 411126;
    print(koxaltes_member_report(m, tension, 1, none, 0, out, out_length), out);
    koxaltes_utilization_answer a = koxaltes_member_utilization(m, tension, 1, none, 0);
    if (a.question == KOXALTES_ACCEPTED && a.utilization.first_reached && !a.utilization.second_reached) {
        printf("moment %.3f alone\n", a.utilization.first);
    }
}

static void show_grades(uint8_t *out, size_t out_length) {
    static uint8_t file[KOXALTES_LONGEST_FILE];
    koxaltes_member m = beam();
    m.fields[KOXALTES_BEAM_CONCRETE] = 80;
    print(koxaltes_member_report(m, tension, 1, none, 0, out, out_length), out);
    koxaltes_record r = records[1];
    r.fields.column.concrete = 80;
    koxaltes_answer a = koxaltes_write_records(&r, 1, file, sizeof file);
    print(a.question == KOXALTES_ACCEPTED ? koxaltes_report(file, a.length, out, out_length) : a, out);
    /* no such grade: KOXALTES_REFUSED_FIELD */
    m.fields[KOXALTES_BEAM_CONCRETE] = 85;
    print(koxaltes_member_report(m, tension, 1, none, 0, out, out_length), out);
}

int main(void) {
    /* one byte more than a schedule may have, so that a longer one is refused and not cut */
    static uint8_t schedule[KOXALTES_LONGEST_SCHEDULE + 1];
    static uint8_t out[KOXALTES_LONGEST_REPORT];
    show_member(out, sizeof out);
    size_t length = fread(schedule, 1, sizeof schedule, stdin);
    print(koxaltes_report(schedule, length, out, sizeof out), out);
    show_records(schedule, length, out, sizeof out);
    show_point_load(out, sizeof out);
    show_moments(out, sizeof out);
    show_web(out, sizeof out);
    show_grades(out, sizeof out);
    return 0;
}
