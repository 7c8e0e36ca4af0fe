/* Koxaltes: a proved checker of reinforcement schedules, for callers in C and C++. The manual is docs/MANUAL.md.
 *
 * Link target/staticlib/libkoxaltes.a (`bindings/library.sh`). The library is compiled for x86-64 Linux and follows the
 * System V AMD64 calling convention. It uses no heap, no global state and no function of the C library but memcpy; any thread
 * may call it.
 *
 * Every entry takes any input: bytes, numbers and list lengths are questioned, never trusted. A caller owes what C owes: a
 * pointer that is not null (also where the length is 0), aligned for its type and valid for its length, and an `out` that
 * overlaps nothing else lent; for utilizations also the default floating-point rounding mode, to nearest.
 * What each entry yields is proved: crates/koxaltes/src/lib.rt has the contracts. This header is written by hand, its
 * inline function too. */
#ifndef KOXALTES_H
#define KOXALTES_H

#include <stdbool.h>
#include <stddef.h>
#include <stdint.h>

/* The version, MAJOR.MINOR.PATCH, of everything that a program can rely on:
 *   the binary interface: functions, their arguments, the layout of each struct, the numbers of fields, kinds and questions;
 *   the schedule's format;
 *   what is printed: the words of a line, and the figures and the check for a given member.
 * PATCH: nothing of this changed. MINOR: something was added, and what a program did before still gives what it gave.
 * MAJOR: something changed or went; compile again and read the manual again. While MAJOR is 0, a new MINOR may do the same.
 * A program meets an added question or word as a number or word that it does not know, and must take it for a refusal or for
 * a failed check. An added kind, or an added value of a field, is accepted where it was refused, and a limit may grow with it.
 * The archive does not hold its version: use the header and the archive of one checkout. */
#define KOXALTES_VERSION "0.6.0"
#define KOXALTES_VERSION_MAJOR 0
#define KOXALTES_VERSION_MINOR 6
#define KOXALTES_VERSION_PATCH 0

#ifdef __cplusplus
extern "C" {
#endif

/* What an answer's `question` holds: 0, or the number of the first question that was answered no.
 * KOXALTES_ACCEPTED says that the input was accepted. It does not say that a member's line says OK: read the line. */
enum {
    KOXALTES_ACCEPTED = 0,
    KOXALTES_REFUSED_SIZE = 1,         /* the schedule has more than 60,000 bytes */
    KOXALTES_REFUSED_NUMBER_ENDS = 2,  /* the schedule ends inside a number, or where one is due */
    KOXALTES_REFUSED_NUMBER_FORM = 3,  /* a number of more than five bytes, of 2^32 or more, or not in its shortest form */
    KOXALTES_REFUSED_COUNT = 4,        /* more than 500 members */
    KOXALTES_REFUSED_MARK = 5,         /* a mark out of range, or not above the one before it */
    KOXALTES_REFUSED_KIND = 6,         /* an unknown kind */
    KOXALTES_REFUSED_FIELD = 7,        /* a field or a group out of range; a count above the length of its list */
    KOXALTES_REFUSED_CONSISTENCY = 8,  /* fields that do not fit together */
    KOXALTES_REFUSED_BARS = 9,         /* more than 40 bars on a face of a beam, or in a column */
    KOXALTES_REFUSED_RATIO = 10,       /* more than 4 percent of tension steel in a beam */
    KOXALTES_REFUSED_TRAILING = 11,    /* bytes after the last member */
    KOXALTES_REFUSED_BUFFER = 12,      /* the text is longer than `out` */
    KOXALTES_REFUSED_FILE = 13,        /* the written file is longer than `out` */
    KOXALTES_REFUSED_SERVICE_MOMENT = 14 /* Mq above M in a beam */
};

/* Limits. A schedule that is read may have KOXALTES_LONGEST_SCHEDULE bytes; none that is written is longer than
 * KOXALTES_LONGEST_FILE. No report is longer than KOXALTES_LONGEST_REPORT, no member's line longer than
 * KOXALTES_LONGEST_LINE. */
enum {
    KOXALTES_LONGEST_SCHEDULE = 60000,
    KOXALTES_LONGEST_FILE = 30502,
    KOXALTES_LONGEST_REPORT = 27555,
    KOXALTES_LONGEST_LINE = 55,
    KOXALTES_MOST_MEMBERS = 500,
    KOXALTES_MOST_GROUPS = 4 /* in one list */
};

/* Bars of one diameter (mm). */
typedef struct {
    uint32_t diameter;
    uint32_t bars;
} koxaltes_group;

/* Kinds of members. A point-loaded beam is a beam with one field more; what is said of beams holds of it, too. */
enum { KOXALTES_BEAM = 1, KOXALTES_COLUMN = 2, KOXALTES_MESH = 3, KOXALTES_POINT_LOADED_BEAM = 4 };

enum { KOXALTES_FIELDS = 24 };

/* Places in `fields`, by kind; those of a beam serve both kinds of beams. Lengths in mm, M and MQ in N m, V and N in N.
 * Concrete is a grade, 20 to 80 in steps of five. */
enum {
    KOXALTES_BEAM_B,
    KOXALTES_BEAM_H,
    KOXALTES_BEAM_BF,
    KOXALTES_BEAM_HF,
    KOXALTES_BEAM_AS, /* distance of the tension steel from its face */
    KOXALTES_BEAM_AC, /* a': of the compression steel */
    KOXALTES_BEAM_CONCRETE,
    KOXALTES_BEAM_STEEL,
    KOXALTES_BEAM_TENSION_GROUPS,     /* how many of the first list count */
    KOXALTES_BEAM_COMPRESSION_GROUPS, /* how many of the second list count */
    KOXALTES_BEAM_LINK_DIAMETER,
    KOXALTES_BEAM_LEGS,
    KOXALTES_BEAM_LINK_SPACING,
    KOXALTES_BEAM_LINK_STEEL,
    KOXALTES_BEAM_COVER,
    KOXALTES_BEAM_SPAN,
    KOXALTES_BEAM_M,
    KOXALTES_BEAM_MQ,
    KOXALTES_BEAM_V,
    KOXALTES_BEAM_ENVIRONMENT,
    KOXALTES_BEAM_STRICT,
    /* a, of KOXALTES_POINT_LOADED_BEAM alone: from the load to the support. 0 is accepted: a load at the support, with the shear
     * capacity that a uniform load has. KOXALTES_BEAM does not read it. */
    KOXALTES_BEAM_LOAD_DISTANCE
};

enum {
    KOXALTES_COLUMN_B,
    KOXALTES_COLUMN_H,
    KOXALTES_COLUMN_CONCRETE,
    KOXALTES_COLUMN_STEEL,
    KOXALTES_COLUMN_GROUPS, /* how many of the first list count */
    KOXALTES_COLUMN_LINK_DIAMETER,
    KOXALTES_COLUMN_LINK_SPACING,
    KOXALTES_COLUMN_L0,
    KOXALTES_COLUMN_N
};

enum {
    KOXALTES_MESH_FAMILY,
    KOXALTES_MESH_CONCRETE,
    KOXALTES_MESH_DIAMETER,
    KOXALTES_MESH_CROSS_BAR,
    KOXALTES_MESH_PAIRED,
    KOXALTES_MESH_APART,
    KOXALTES_MESH_SEISMIC,
    KOXALTES_MESH_LAP,
    KOXALTES_MESH_COMPRESSION,
    KOXALTES_MESH_ANCHORAGE_GIVEN,
    KOXALTES_MESH_LAP_GIVEN
};

/* A built member. Its groups are lent beside it; fields past those of its kind have no effect. */
typedef struct {
    uint32_t mark;
    uint32_t kind;
    uint32_t fields[KOXALTES_FIELDS];
} koxaltes_member;

/* A record: a member of a schedule that a caller holds in memory, as KOXALTES_RECORD_WORDS words: its mark, its kind and
 * KOXALTES_SLOTS slots. The slots hold the fields of its kind in a schedule's order, each group as two; every list has room for
 * four. Slots past a count and past the kind's last field have no effect. The structs below name the slots of each kind. */
enum { KOXALTES_SLOTS = 40, KOXALTES_RECORD_WORDS = 42 };

/* Lengths in mm, m and mq in N m, v and n in N. Concrete is a grade, 20 to 80 in steps of five. */
typedef struct {
    uint32_t b;
    uint32_t h;
    uint32_t bf;
    uint32_t hf;
    uint32_t tension_distance;     /* as: of the tension steel from its face */
    uint32_t compression_distance; /* a': of the compression steel */
    uint32_t concrete;
    uint32_t steel;
    uint32_t tension_groups; /* how many of `tension` count */
    koxaltes_group tension[KOXALTES_MOST_GROUPS];
    uint32_t compression_groups; /* how many of `compression` count */
    koxaltes_group compression[KOXALTES_MOST_GROUPS];
    uint32_t link_diameter;
    uint32_t legs;
    uint32_t link_spacing;
    uint32_t link_steel;
    uint32_t cover;
    uint32_t span;
    uint32_t m;
    uint32_t mq;
    uint32_t v;
    uint32_t environment;
    uint32_t strict;
} koxaltes_beam_record;

typedef struct {
    koxaltes_beam_record beam;
    uint32_t load_distance; /* as KOXALTES_BEAM_LOAD_DISTANCE */
} koxaltes_point_loaded_beam_record;

typedef struct {
    uint32_t b;
    uint32_t h;
    uint32_t concrete;
    uint32_t steel;
    uint32_t groups; /* how many of `list` count */
    koxaltes_group list[KOXALTES_MOST_GROUPS];
    uint32_t link_diameter;
    uint32_t link_spacing;
    uint32_t l0;
    uint32_t n;
} koxaltes_column_record;

typedef struct {
    uint32_t family;
    uint32_t concrete;
    uint32_t diameter;
    uint32_t cross_bar;
    uint32_t paired;
    uint32_t apart;
    uint32_t seismic;
    uint32_t lap;
    uint32_t compression;
    uint32_t anchorage_given;
    uint32_t lap_given;
} koxaltes_mesh_record;

/* `kind` says which of `fields` counts. A record is words and nothing between them: an array of records is its words. */
typedef struct {
    uint32_t mark;
    uint32_t kind;
    union {
        koxaltes_beam_record beam;
        koxaltes_column_record column;
        koxaltes_mesh_record mesh;
        koxaltes_point_loaded_beam_record point_loaded_beam;
        uint32_t slots[KOXALTES_SLOTS];
    } fields;
} koxaltes_record;

/* KOXALTES_ACCEPTED: member 0; the text, or the written file, stands in the first `length` bytes of `out`, without a 0 byte
 * after it, and the bytes past it are as they were. Any other question: the member that it names, length 0; `out` is as it
 * was. */
typedef struct {
    uint32_t question;
    uint32_t member;
    size_t length;
} koxaltes_answer;

/* Beams: moment, shear, width, deflection; columns: axial force first; meshes: anchorage, lap. Each is the double nearest to
 * demand over figure (widths, deflections, lengths: figure over limit), at most 1.0 exactly where its check holds.
 * A flag is false, and its value 0.0, where the check was not reached or the divisor is 0. That of a beam's shear is true only
 * where the web does not crush (6.3.1v). */
typedef struct {
    double first;
    double second;
    double third;
    double fourth;
    bool first_reached;
    bool second_reached;
    bool third_reached;
    bool fourth_reached;
} koxaltes_utilization;

/* KOXALTES_ACCEPTED: given; `governing` is the largest utilization reached, where `governs` says that any was. A member whose
 * check without a figure fails may have no utilization above 1.0: whether it is OK is said by its line alone.
 * Any other question: as in koxaltes_answer, all else 0 and false. */
typedef struct {
    uint32_t question;
    uint32_t member;
    koxaltes_utilization utilization;
    bool governs;
    double governing;
} koxaltes_utilization_answer;

/* KOXALTES_ACCEPTED: the totals of the groups counted. Any other question: as in koxaltes_answer, all else 0. */
typedef struct {
    uint32_t question;
    uint32_t member;
    uint64_t bars;      /* their number */
    uint64_t area;      /* tenths of a square millimetre */
    uint64_t diameters; /* sum of n*d for n bars of diameter d, mm */
    uint64_t squares;   /* sum of n*d*d, square millimetres */
} koxaltes_bar_totals_answer;

/* The report of a schedule's bytes into `out`. */
koxaltes_answer koxaltes_report(const uint8_t *schedule, size_t schedule_length, uint8_t *out, size_t out_length);

/* The line of one built member into `out`. `first` are a beam's tension groups or a column's groups, `second` a beam's
 * compression groups. Groups past a count, and a list that the kind does not have, are not read. */
koxaltes_answer koxaltes_member_report(koxaltes_member member, const koxaltes_group *first, size_t first_length,
                                       const koxaltes_group *second, size_t second_length, uint8_t *out,
                                       size_t out_length);

/* The utilizations of one built member, its lists as for koxaltes_member_report. */
koxaltes_utilization_answer koxaltes_member_utilization(koxaltes_member member, const koxaltes_group *first,
                                                        size_t first_length, const koxaltes_group *second,
                                                        size_t second_length);

/* The totals of the first `count` groups of a list, at most 4; groups past them are not read. KOXALTES_REFUSED_FIELD and
 * member 1 where the count is above 4 or above the length, or one of those groups is out of range. A count of 0 gives zeros. */
koxaltes_bar_totals_answer koxaltes_bar_totals(const koxaltes_group *groups, size_t groups_length, size_t count);

/* The file of a held schedule into `out`. `words` are records one after the other; words past the last whole record are not
 * read. KOXALTES_REFUSED_COUNT where there are more than 500; then each record's questions, from KOXALTES_REFUSED_MARK to
 * KOXALTES_REFUSED_RATIO and then KOXALTES_REFUSED_SERVICE_MOMENT, the first no with its place from 1; KOXALTES_REFUSED_FILE
 * last. No records give the file 00.
 * The file is an accepted schedule with these members, and no other file has them. */
koxaltes_answer koxaltes_write_schedule(const uint32_t *words, size_t word_count, uint8_t *out, size_t out_length);

/* koxaltes_write_schedule of `count` records.
 * Words: each is a uint32_t of a record and is read as one, so C's rules of aliasing hold.
 * Count: more than 500 are refused alike and unread, so 501 stand for any more, and the product cannot overflow. */
static inline koxaltes_answer koxaltes_write_records(const koxaltes_record *records, size_t count, uint8_t *out,
                                                     size_t out_length) {
    size_t taken = count > KOXALTES_MOST_MEMBERS ? KOXALTES_MOST_MEMBERS + 1 : count;
    return koxaltes_write_schedule((const uint32_t *)records, taken * KOXALTES_RECORD_WORDS, out, out_length);
}

#ifdef __cplusplus
}
#endif

/* The layout of each struct, as the library has it. It is part of the binary interface: this version keeps it. */
#if defined(__cplusplus)
#define KOXALTES_KEEPS(test) static_assert(test, "koxaltes: another struct layout than the library's")
#elif defined(__STDC_VERSION__) && __STDC_VERSION__ >= 201112L
#define KOXALTES_KEEPS(test) _Static_assert(test, "koxaltes: another struct layout than the library's")
#else
#define KOXALTES_KEEPS(test) extern int koxaltes_keeps[(test) ? 1 : -1]
#endif
KOXALTES_KEEPS(sizeof(koxaltes_group) == 8 && offsetof(koxaltes_group, bars) == 4);
KOXALTES_KEEPS(sizeof(koxaltes_member) == 104 && offsetof(koxaltes_member, kind) == 4);
KOXALTES_KEEPS(offsetof(koxaltes_member, fields) == 8);
#define KOXALTES_SLOT(kind, field) (offsetof(koxaltes_##kind##_record, field) / 4)
KOXALTES_KEEPS(sizeof(koxaltes_beam_record) == 4 * 37 && sizeof(koxaltes_column_record) == 4 * 17);
KOXALTES_KEEPS(sizeof(koxaltes_mesh_record) == 4 * 11 && sizeof(koxaltes_point_loaded_beam_record) == 4 * 38);
KOXALTES_KEEPS(KOXALTES_SLOT(beam, h) == 1 && KOXALTES_SLOT(beam, bf) == 2 && KOXALTES_SLOT(beam, hf) == 3);
KOXALTES_KEEPS(KOXALTES_SLOT(beam, tension_distance) == 4 && KOXALTES_SLOT(beam, compression_distance) == 5);
KOXALTES_KEEPS(KOXALTES_SLOT(beam, concrete) == 6 && KOXALTES_SLOT(beam, steel) == 7);
KOXALTES_KEEPS(KOXALTES_SLOT(beam, tension_groups) == 8 && KOXALTES_SLOT(beam, tension) == 9);
KOXALTES_KEEPS(KOXALTES_SLOT(beam, compression_groups) == 17 && KOXALTES_SLOT(beam, compression) == 18);
KOXALTES_KEEPS(KOXALTES_SLOT(beam, link_diameter) == 26 && KOXALTES_SLOT(beam, legs) == 27);
KOXALTES_KEEPS(KOXALTES_SLOT(beam, link_spacing) == 28 && KOXALTES_SLOT(beam, link_steel) == 29);
KOXALTES_KEEPS(KOXALTES_SLOT(beam, cover) == 30 && KOXALTES_SLOT(beam, span) == 31 && KOXALTES_SLOT(beam, m) == 32);
KOXALTES_KEEPS(KOXALTES_SLOT(beam, mq) == 33 && KOXALTES_SLOT(beam, v) == 34 && KOXALTES_SLOT(beam, environment) == 35);
KOXALTES_KEEPS(KOXALTES_SLOT(beam, strict) == 36);
KOXALTES_KEEPS(KOXALTES_SLOT(column, h) == 1 && KOXALTES_SLOT(column, concrete) == 2);
KOXALTES_KEEPS(KOXALTES_SLOT(column, steel) == 3 && KOXALTES_SLOT(column, groups) == 4);
KOXALTES_KEEPS(KOXALTES_SLOT(column, list) == 5 && KOXALTES_SLOT(column, link_diameter) == 13);
KOXALTES_KEEPS(KOXALTES_SLOT(column, link_spacing) == 14 && KOXALTES_SLOT(column, l0) == 15);
KOXALTES_KEEPS(KOXALTES_SLOT(column, n) == 16);
KOXALTES_KEEPS(KOXALTES_SLOT(mesh, concrete) == 1 && KOXALTES_SLOT(mesh, diameter) == 2);
KOXALTES_KEEPS(KOXALTES_SLOT(mesh, cross_bar) == 3 && KOXALTES_SLOT(mesh, paired) == 4);
KOXALTES_KEEPS(KOXALTES_SLOT(mesh, apart) == 5 && KOXALTES_SLOT(mesh, seismic) == 6 && KOXALTES_SLOT(mesh, lap) == 7);
KOXALTES_KEEPS(KOXALTES_SLOT(mesh, compression) == 8 && KOXALTES_SLOT(mesh, anchorage_given) == 9);
KOXALTES_KEEPS(KOXALTES_SLOT(mesh, lap_given) == 10);
KOXALTES_KEEPS(KOXALTES_SLOT(point_loaded_beam, beam) == 0 && KOXALTES_SLOT(point_loaded_beam, load_distance) == 37);
#undef KOXALTES_SLOT
KOXALTES_KEEPS(sizeof(koxaltes_record) == 4 * KOXALTES_RECORD_WORDS && offsetof(koxaltes_record, kind) == 4);
KOXALTES_KEEPS(offsetof(koxaltes_record, fields) == 8);
KOXALTES_KEEPS(sizeof(koxaltes_answer) == 16 && offsetof(koxaltes_answer, member) == 4);
KOXALTES_KEEPS(offsetof(koxaltes_answer, length) == 8);
KOXALTES_KEEPS(sizeof(koxaltes_utilization) == 40 && offsetof(koxaltes_utilization, second) == 8);
KOXALTES_KEEPS(offsetof(koxaltes_utilization, third) == 16 && offsetof(koxaltes_utilization, fourth) == 24);
KOXALTES_KEEPS(offsetof(koxaltes_utilization, first_reached) == 32 && offsetof(koxaltes_utilization, second_reached) == 33);
KOXALTES_KEEPS(offsetof(koxaltes_utilization, third_reached) == 34 && offsetof(koxaltes_utilization, fourth_reached) == 35);
KOXALTES_KEEPS(sizeof(koxaltes_utilization_answer) == 64 && offsetof(koxaltes_utilization_answer, member) == 4);
KOXALTES_KEEPS(offsetof(koxaltes_utilization_answer, utilization) == 8);
KOXALTES_KEEPS(offsetof(koxaltes_utilization_answer, governs) == 48);
KOXALTES_KEEPS(offsetof(koxaltes_utilization_answer, governing) == 56);
KOXALTES_KEEPS(sizeof(koxaltes_bar_totals_answer) == 40 && offsetof(koxaltes_bar_totals_answer, member) == 4);
KOXALTES_KEEPS(offsetof(koxaltes_bar_totals_answer, bars) == 8 && offsetof(koxaltes_bar_totals_answer, area) == 16);
KOXALTES_KEEPS(offsetof(koxaltes_bar_totals_answer, diameters) == 24);
KOXALTES_KEEPS(offsetof(koxaltes_bar_totals_answer, squares) == 32);
#undef KOXALTES_KEEPS

#endif
