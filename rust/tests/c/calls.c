/*
 * Every function of the header on the sample workshop, accepted and refused. The program includes nothing but the
 * header, so it cannot print. Its exit status is 0, or the number of the first check that failed.
 */
#include "dacm.h"

/* A field is 32 bits, little-endian. */
#define FIELD(n) \
    (uint8_t)((n) & 0xff), (uint8_t)((n) >> 8 & 0xff), (uint8_t)((n) >> 16 & 0xff), (uint8_t)((n) >> 24 & 0xff)
#define ROW3(a, b, c) FIELD(UINT32_C(a)), FIELD(UINT32_C(b)), FIELD(UINT32_C(c))
#define ROW4(a, b, c, d) ROW3(a, b, c), FIELD(UINT32_C(d))
#define ROW5(a, b, c, d, e) ROW4(a, b, c, d), FIELD(UINT32_C(e))

enum { LENGTH = 336, LINES = 160, LINE_BYTES = 16 };

static const uint8_t sample[LENGTH] = {
    /* used rows and offset of subjects, grants, lines and items, then the total */
    ROW5(6, 36, 1, 120, 5), ROW4(160, 4, 256, 336),
    /* subjects: parent, privileges, creator */
    ROW3(0, 0xffffffff, 0), ROW3(0, 127, 0), ROW3(1, 91, 1), ROW3(0, 73, 0), ROW3(3, 9, 0), ROW3(2, 3, 1),
    ROW3(0, 0, 0),
    /* grants: receiver, role, grantor, domain, privileges */
    ROW5(4, 7, 2, 2, 3), ROW5(0, 0, 0, 0, 0),
    /* lines: list, kind, subject, privileges */
    ROW4(1, 0, 4, 8), ROW4(1, 0, 5, 0), ROW4(1, 1, 1, 3), ROW4(1, 2, 0, 7), ROW4(1, 3, 0, 1), ROW4(0, 0, 0, 0),
    /* items: owner, list, flags, folder */
    ROW4(1, 1, 1, 0), ROW4(2, 1, 0, 0), ROW4(4, 1, 0, 0), ROW4(2, 0, 0, 0), ROW4(0, 0, 0, 0)
};

static uint8_t image[LENGTH];

static int checks, failed;

static void expect(int holds)
{
    checks++;
    if (!holds && failed == 0)
        failed = checks;
}

static void fresh(void)
{
    for (size_t i = 0; i < LENGTH; i++)
        image[i] = sample[i];
}

static int unchanged(void)
{
    for (size_t i = 0; i < LENGTH; i++)
        if (image[i] != sample[i])
            return 0;
    return 1;
}

static void accepted(dacm_answer answer, uint32_t result)
{
    expect(answer.number == DACM_DONE && answer.result == result);
    expect(dacm_check(image, LENGTH).number == DACM_DONE);
}

/* A refused call has result 0 and leaves every byte of the fresh sample as it was. */
static void refused(dacm_answer answer, uint32_t number)
{
    expect(answer.number == number && answer.result == 0);
    expect(unchanged());
}

static const dacm_subject custodian = {0}, first = {1}, second = {2}, third = {3}, fourth = {4}, fifth = {5};
static const dacm_subject nobody = {6};
static const dacm_role no_role = {0}, seventh = {7};
static const dacm_item none = {0}, list = {1}, document = {2}, unlisted = {4}, nothing = {5};

static uint32_t set_of(dacm_subject subject, dacm_item item)
{
    return dacm_permission_set(image, LENGTH, subject, no_role, item).result;
}

static int same(dacm_explanation one, dacm_explanation other)
{
    return one.number == other.number && one.rule == other.rule && one.group == other.group
        && one.rule_set == other.rule_set && one.everyone_set == other.everyone_set && one.role_set == other.role_set
        && one.operations == other.operations && one.steps == other.steps && one.folder == other.folder;
}

static void explained(dacm_subject subject, dacm_role role, dacm_item item, dacm_explanation explanation)
{
    expect(same(dacm_explain(image, LENGTH, subject, role, item), explanation));
    expect(dacm_permission_set(image, LENGTH, subject, role, item).result
           == (explanation.operations & (explanation.rule_set | explanation.everyone_set | explanation.role_set)));
    expect(unchanged());
}

/* A refused explanation has 0 in every field but the number. */
static void unexplained(dacm_explanation answer, uint32_t number)
{
    dacm_explanation refusal = {.number = number};
    expect(same(answer, refusal));
    expect(unchanged());
}

/* A field that is not named is 0. */
static void explain(void)
{
    fresh();
    dacm_explanation custodians = {
        .rule = DACM_RULE_CUSTODIAN, .rule_set = DACM_ALL, .operations = DACM_ALL, .steps = DACM_STEPS_OUTSIDE
    };
    explained(custodian, no_role, document, custodians);
    explained(custodian, no_role, unlisted, custodians);

    dacm_explanation owners = {
        .rule = DACM_RULE_OWNER_LINE, .rule_set = 7, .everyone_set = 1, .operations = 91, .steps = DACM_STEPS_OUTSIDE
    };
    explained(second, no_role, document, owners);

    dacm_explanation denied = {
        .rule = DACM_RULE_OWN_LINE, .rule_set = 0, .everyone_set = 1, .operations = 3, .steps = DACM_STEPS_OUTSIDE
    };
    explained(fifth, no_role, document, denied);

    dacm_explanation under_role = {
        .rule = DACM_RULE_OWN_LINE, .rule_set = 8, .everyone_set = 1, .role_set = 3, .operations = 11, .steps = 0
    };
    explained(fourth, seventh, document, under_role);

    dacm_explanation by_group = {
        .rule = DACM_RULE_GROUP_LINE, .group = first.number, .rule_set = 3, .everyone_set = 1, .operations = 91,
        .steps = DACM_STEPS_OUTSIDE
    };
    explained(second, no_role, list, by_group);

    dacm_explanation not_found = {
        .rule = DACM_RULE_NOTHING_FOUND, .everyone_set = 1, .operations = 73, .steps = DACM_STEPS_OUTSIDE
    };
    explained(third, no_role, document, not_found);

    dacm_explanation without_list = {
        .rule = DACM_RULE_NOTHING_FOUND, .operations = 91, .steps = DACM_STEPS_OUTSIDE
    };
    explained(second, no_role, unlisted, without_list);

    unexplained(dacm_explain(image, 35, second, no_role, document), DACM_BAD_LENGTH);
    unexplained(dacm_explain(image, LENGTH - 1, second, no_role, document), DACM_BAD_LAYOUT);
    unexplained(dacm_explain(image, LENGTH, nobody, no_role, nothing), DACM_UNKNOWN_CALLER);
    unexplained(dacm_explain(image, LENGTH, second, no_role, nothing), DACM_UNKNOWN_ITEM);
    unexplained(dacm_explain(image, LENGTH, second, no_role, none), DACM_UNKNOWN_ITEM);
}

enum { ENTRIES = DACM_POSITIONS + 1 };

static uint32_t counts[ENTRIES];

/* Before the call every entry holds what is no number of subjects. */
static dacm_answer count_holders(size_t length, dacm_item item, size_t entries)
{
    for (size_t n = 0; n < ENTRIES; n++)
        counts[n] = DACM_ALL;
    return dacm_count_holders(image, length, item, counts, entries);
}

static int entries_are(uint32_t count, size_t from, size_t to)
{
    for (size_t n = from; n < to; n++)
        if (counts[n] != count)
            return 0;
    return 1;
}

/* At the other positions the custodian is the only holder. The last entry is not lent. */
static void counted(dacm_item item, uint32_t read, uint32_t replace, uint32_t discard, uint32_t annotate)
{
    accepted(count_holders(LENGTH, item, DACM_POSITIONS), 0);
    expect(counts[0] == read && counts[1] == replace && counts[2] == discard && counts[3] == annotate);
    expect(entries_are(1, 4, DACM_POSITIONS));
    expect(entries_are(DACM_ALL, DACM_POSITIONS, ENTRIES));
    expect(unchanged());
}

/* A refused call leaves every entry as it was. */
static void uncounted(dacm_answer answer, uint32_t number)
{
    refused(answer, number);
    expect(entries_are(DACM_ALL, 0, ENTRIES));
}

static void count(void)
{
    fresh();
    counted(list, 6, 3, 2, 2);
    counted(document, 6, 2, 1, 2);
    counted(unlisted, 1, 1, 1, 1);

    uncounted(count_holders(35, nothing, 0), DACM_BAD_LENGTH);
    uncounted(count_holders(LENGTH - 1, nothing, 0), DACM_BAD_LAYOUT);
    uncounted(count_holders(LENGTH, nothing, 0), DACM_UNKNOWN_ITEM);
    uncounted(count_holders(LENGTH, none, DACM_POSITIONS), DACM_UNKNOWN_ITEM);
    uncounted(count_holders(LENGTH, document, 0), DACM_BAD_COUNTS_LENGTH);
    uncounted(count_holders(LENGTH, document, DACM_POSITIONS - 1), DACM_BAD_COUNTS_LENGTH);
    uncounted(count_holders(LENGTH, document, DACM_POSITIONS + 1), DACM_BAD_COUNTS_LENGTH);
}

static void ask(void)
{
    fresh();
    accepted(dacm_check(image, LENGTH), 0);
    refused(dacm_check(image, 35), DACM_BAD_LENGTH);
    refused(dacm_check(image, 0), DACM_BAD_LENGTH);
    refused(dacm_check(image, LENGTH - 1), DACM_BAD_LAYOUT);

    accepted(dacm_operation_set(image, LENGTH, fourth, seventh), 11);
    accepted(dacm_operation_set(image, LENGTH, custodian, no_role), DACM_ALL);
    refused(dacm_operation_set(image, LENGTH, nobody, no_role), DACM_UNKNOWN_CALLER);

    accepted(dacm_permission_set(image, LENGTH, fourth, seventh, document), DACM_READ | DACM_REPLACE | DACM_ANNOTATE);
    refused(dacm_permission_set(image, LENGTH, nobody, no_role, nothing), DACM_UNKNOWN_CALLER);
    refused(dacm_permission_set(image, LENGTH, first, no_role, nothing), DACM_UNKNOWN_ITEM);

    accepted(dacm_list_count(image, LENGTH, list), 5);
    refused(dacm_list_count(image, LENGTH, document), DACM_NOT_A_LIST);

    expect(dacm_list_start(image, LENGTH, list) == LINES);
    expect(image[LINES + 5 * LINE_BYTES - LINE_BYTES + 4] == DACM_EVERYONE);
    expect(dacm_list_start(image, LENGTH, document) == 0);
    expect(dacm_list_start(image, 0, list) == 0);

    refused(dacm_find_editor(image, LENGTH, list), DACM_NO_EDITOR);
    refused(dacm_find_editor(image, LENGTH, none), DACM_NOT_A_LIST);
    accepted(dacm_set_line(image, LENGTH, custodian, no_role, list, DACM_ITSELF, third, DACM_EDIT_LIST), 0);
    accepted(dacm_find_editor(image, LENGTH, list), third.number);
    accepted(dacm_set_line(image, LENGTH, custodian, no_role, list, DACM_GROUP, first, DACM_EDIT_LIST), 0);
    accepted(dacm_find_editor(image, LENGTH, list), second.number);
}

static void climb(void)
{
    fresh();
    accepted(dacm_steps_up(image, LENGTH, fifth, fifth), 0);
    accepted(dacm_steps_up(image, LENGTH, fifth, second), 1);
    accepted(dacm_steps_up(image, LENGTH, fifth, first), 2);
    accepted(dacm_steps_up(image, LENGTH, fifth, custodian), 3);
    accepted(dacm_steps_up(image, LENGTH, first, fifth), DACM_STEPS_OUTSIDE);
    accepted(dacm_steps_up(image, LENGTH, fifth, third), DACM_STEPS_OUTSIDE);
    refused(dacm_steps_up(image, LENGTH, nobody, custodian), DACM_UNKNOWN_SUBJECT);
    refused(dacm_steps_up(image, LENGTH, custodian, nobody), DACM_UNKNOWN_SUBJECT);
    refused(dacm_steps_up(image, 35, nobody, nobody), DACM_BAD_LENGTH);

    accepted(dacm_hand_over(image, LENGTH, custodian, document, fifth), 0);
    expect(dacm_explain(image, LENGTH, fourth, seventh, document).steps == 1);
    accepted(dacm_hand_over(image, LENGTH, custodian, document, first), 0);
    expect(dacm_explain(image, LENGTH, fourth, seventh, document).steps == DACM_STEPS_OUTSIDE);
}

static void change_subjects_and_grants(void)
{
    fresh();
    refused(dacm_define_subject(image, LENGTH, first, no_role, third, 255), DACM_OUTSIDE_TREE);
    refused(dacm_define_subject(image, LENGTH, fourth, seventh, fourth, DACM_READ), DACM_NOT_PERMITTED);
    accepted(dacm_define_subject(image, LENGTH, first, no_role, second, 255), 6);
    expect(dacm_operation_set(image, LENGTH, nobody, no_role).result == 127);
    expect(dacm_define_subject(image, LENGTH, first, no_role, second, 255).number == DACM_TABLE_FULL);

    fresh();
    refused(dacm_set_grant(image, LENGTH, third, fourth, seventh, third, DACM_READ), DACM_NOT_THE_GRANTOR);
    refused(dacm_set_grant(image, LENGTH, third, fourth, seventh, second, DACM_READ), DACM_OUTSIDE_TREE);
    refused(dacm_set_grant(image, LENGTH, third, fourth, no_role, third, DACM_READ), DACM_OUT_OF_RANGE);
    accepted(dacm_set_grant(image, LENGTH, second, fourth, seventh, fifth, DACM_READ), 0);
    expect(dacm_permission_set(image, LENGTH, fourth, seventh, document).result == 9);

    fresh();
    refused(dacm_remove_grant(image, LENGTH, third, fourth, seventh), DACM_NOT_THE_GRANTOR);
    refused(dacm_remove_grant(image, LENGTH, second, fifth, seventh), DACM_NO_SUCH_ROW);
    accepted(dacm_remove_grant(image, LENGTH, second, fourth, seventh), 0);
    expect(dacm_permission_set(image, LENGTH, fourth, seventh, document).result == 9);
}

static void change_lines(void)
{
    fresh();
    refused(dacm_set_line(image, LENGTH, first, no_role, list, DACM_ITSELF, third, DACM_READ), DACM_NOT_PERMITTED);
    refused(dacm_set_line(image, LENGTH, custodian, no_role, list, DACM_EVERYONE, third, DACM_READ), DACM_OUT_OF_RANGE);
    accepted(dacm_set_line(image, LENGTH, custodian, no_role, list, DACM_GROUP, third, DACM_ANNOTATE), 0);
    expect(dacm_list_count(image, LENGTH, list).result == 6);
    accepted(dacm_set_line(image, LENGTH, custodian, no_role, list, DACM_OWNER, custodian, DACM_DISCARD), 0);
    expect(set_of(second, document) == DACM_READ);
    expect(dacm_set_line(image, LENGTH, custodian, no_role, list, DACM_ITSELF, third, DACM_READ).number
           == DACM_TABLE_FULL);

    fresh();
    refused(dacm_remove_line(image, LENGTH, first, no_role, list, DACM_ITSELF, fifth), DACM_NOT_PERMITTED);
    refused(dacm_remove_line(image, LENGTH, custodian, no_role, list, DACM_ITSELF, third), DACM_NO_SUCH_ROW);
    accepted(dacm_remove_line(image, LENGTH, custodian, no_role, list, DACM_ITSELF, fifth), 0);
    expect(set_of(fifth, document) == (DACM_READ | DACM_REPLACE));
}

static void change_items(void)
{
    fresh();
    refused(dacm_create_item(image, LENGTH, fourth, no_role, list, 0, none), DACM_NOT_PERMITTED);
    refused(dacm_create_item(image, LENGTH, first, no_role, list, 8, none), DACM_OUT_OF_RANGE);
    accepted(dacm_create_item(image, LENGTH, first, no_role, none, DACM_IS_LIST | DACM_LOCKED, none), nothing.number);
    expect(dacm_list_count(image, LENGTH, nothing).number == DACM_DONE);
    expect(dacm_list_start(image, LENGTH, nothing) == 0);
    expect(dacm_bind(image, LENGTH, first, nothing, list).number == DACM_NOT_PERMITTED);

    fresh();
    refused(dacm_bind(image, LENGTH, fifth, unlisted, list), DACM_NOT_PERMITTED);
    refused(dacm_bind(image, LENGTH, second, none, list), DACM_UNKNOWN_ITEM);
    accepted(dacm_bind(image, LENGTH, second, unlisted, list), 0);
    expect(set_of(second, unlisted) == 3);
    accepted(dacm_bind(image, LENGTH, second, unlisted, none), 0);
    expect(unchanged());

    fresh();
    refused(dacm_hand_over(image, LENGTH, second, unlisted, fifth), DACM_NOT_PERMITTED);
    refused(dacm_hand_over(image, LENGTH, custodian, unlisted, nobody), DACM_UNKNOWN_SUBJECT);
    accepted(dacm_hand_over(image, LENGTH, custodian, unlisted, fifth), 0);
    expect(dacm_bind(image, LENGTH, fifth, unlisted, list).number == DACM_DONE);
}

/* What the explanations along the folders share. */
static uint32_t shared_on_way_up(dacm_subject subject, dacm_role role, dacm_item item)
{
    uint32_t shared = DACM_ALL;
    do {
        dacm_explanation next = dacm_explain(image, LENGTH, subject, role, item);
        expect(next.number == DACM_DONE);
        shared &= next.operations & (next.rule_set | next.everyone_set | next.role_set);
        item.number = next.folder;
    } while (item.number != 0);
    return shared;
}

/* The fourth subject may annotate the document by its own line, and by its role read and replace it. */
static void apply_folder(void)
{
    dacm_item created = nothing;

    fresh();
    refused(dacm_create_item(image, LENGTH, first, no_role, document, DACM_FOLDER_APPLIES, nothing), DACM_UNKNOWN_ITEM);
    refused(dacm_create_item(image, LENGTH, first, no_role, document, DACM_FOLDER_APPLIES, none), DACM_NOT_A_LIST);
    refused(dacm_create_item(image, LENGTH, first, no_role, list, DACM_FOLDER_APPLIES, none), DACM_OUT_OF_RANGE);
    refused(dacm_create_item(image, LENGTH, first, no_role, list, 2 * DACM_FOLDER_APPLIES, document),
            DACM_OUT_OF_RANGE);
    refused(dacm_create_item(image, LENGTH, fourth, no_role, list, DACM_FOLDER_APPLIES, document), DACM_NOT_PERMITTED);

    accepted(dacm_create_item(image, LENGTH, second, no_role, list, DACM_FOLDER_APPLIES, document), created.number);
    accepted(dacm_permission_set(image, LENGTH, fourth, seventh, created), 11);
    expect(dacm_explain(image, LENGTH, fourth, seventh, created).folder == document.number);
    expect(dacm_explain(image, LENGTH, fourth, seventh, document).folder == 0);
    expect(shared_on_way_up(fourth, seventh, created) == 11);
    accepted(dacm_hand_over(image, LENGTH, custodian, document, fifth), 0);
    accepted(dacm_permission_set(image, LENGTH, fourth, seventh, created), 11);
    accepted(dacm_bind(image, LENGTH, fifth, document, none), 0);
    accepted(dacm_permission_set(image, LENGTH, fourth, seventh, created), 0);
    accepted(dacm_permission_set(image, LENGTH, custodian, no_role, created), DACM_ALL);
    expect(shared_on_way_up(fourth, seventh, created) == 0);
    accepted(count_holders(LENGTH, created, DACM_POSITIONS), 0);
    expect(entries_are(1, 0, DACM_POSITIONS));

    fresh();
    accepted(dacm_create_item(image, LENGTH, second, no_role, list, DACM_LOCKED, unlisted), created.number);
    expect(set_of(fourth, created) == 9);
    expect(dacm_explain(image, LENGTH, fourth, no_role, created).folder == 0);
}

int main(void)
{
    ask();
    explain();
    climb();
    count();
    change_subjects_and_grants();
    change_lines();
    change_items();
    apply_folder();
    return failed;
}
