/*
 * The access tables of a document library: who may read, replace or discard which document.
 *
 * The tables are kept in one image: 36 to 65,536 bytes that the host lends to every call, whatever they hold. Every
 * call takes any bytes and any numbers. It asks its questions in the order in which their numbers are listed below;
 * docs/RULES.md has them in words. If all are answered yes, the call answers number 0 and its result. Otherwise it
 * answers the refusal, which is the number of the first question answered no, and result 0; README.md says what to look
 * at. A refused call leaves every byte of the image as it was, and every entry of the counts. A call that takes the
 * image as const never writes it.
 *
 * The host must ensure three things. `image` points to `length` bytes and is not a null pointer, not even where
 * `length` is 0. The same holds of `counts` and its `entries` numbers, which are aligned and share no byte with the
 * image. And nobody else writes the image during a call, or reads or writes the counts. Calls keep nothing between
 * them. They may run at the same time on different images, and calls that take the image as const also on the same
 * image, each with counts of its own.
 *
 * A call uses at most DACM_STACK_BYTES of stack, whatever the image holds. The search for a group's line is recursive,
 * with at most one level more than the list has group lines. The longest search that fits into an image has some 1,640.
 * Folders are followed in a loop, which needs no further stack. The tests run the longest searches and the deepest
 * chains, of subjects and of folders, on a thread that has exactly this stack.
 */
#ifndef DACM_H
#define DACM_H

#include <stddef.h>
#include <stdint.h>

#ifdef __cplusplus
extern "C" {
#endif

/* The version of this header. */
#define DACM_VERSION_MAJOR 0
#define DACM_VERSION_MINOR 7
#define DACM_VERSION_PATCH 0
#define DACM_VERSION "0.7.0"

/* The stack that a call may need. */
#define DACM_STACK_BYTES 524288

/* Subjects, roles and items are numbers. Each has a type of its own, so that one cannot be passed for another. */
typedef struct { uint32_t number; } dacm_subject; /* 0 is the custodian */
typedef struct { uint32_t number; } dacm_role;    /* 0 is no role */
typedef struct { uint32_t number; } dacm_item;    /* items are numbered from 1; as a list or folder, 0 is none */

/* What a call answers: number 0 and its result, or the refusal and result 0. A call that names no result has 0. */
typedef struct { uint32_t number; uint32_t result; } dacm_answer;

/* The numbers that a call answers, in the order of the questions. A newer archive may have more. */
#define DACM_DONE                UINT32_C(0)  /* no refusal: the call did its job */
#define DACM_BAD_LENGTH          UINT32_C(1)  /* the image is shorter than 36 or longer than 65,536 bytes */
#define DACM_BAD_LAYOUT          UINT32_C(2)  /* the header does not fit the image */
#define DACM_BAD_SUBJECT_ROW     UINT32_C(3)  /* a subject row breaks a rule */
#define DACM_BAD_ITEM_ROW        UINT32_C(4)  /* an item row breaks a rule */
#define DACM_BAD_LINE_ROW        UINT32_C(5)  /* a line row breaks a rule, or the lines are not sorted */
#define DACM_BAD_GRANT_ROW       UINT32_C(6)  /* a grant row breaks a rule, or the grants are not sorted */
#define DACM_UNUSED_ROW_NOT_ZERO UINT32_C(7)  /* a free row is not all zeros */
#define DACM_UNKNOWN_CALLER      UINT32_C(10) /* the caller or asker is not in use */
#define DACM_UNKNOWN_SUBJECT     UINT32_C(11) /* a subject other than the caller or asker is not in use */
#define DACM_UNKNOWN_ITEM        UINT32_C(12) /* the item, or the folder of a new one, is not in use */
#define DACM_BAD_COUNTS_LENGTH   UINT32_C(21) /* the counts do not have exactly DACM_POSITIONS entries */
#define DACM_NOT_A_LIST          UINT32_C(13) /* the list is not in use, or is no access list */
#define DACM_OUT_OF_RANGE        UINT32_C(14) /* the role, kind, subject or flags are out of range */
#define DACM_NOT_PERMITTED       UINT32_C(15) /* the caller may not do this */
#define DACM_OUTSIDE_TREE        UINT32_C(16) /* the parent or domain is outside the tree that it must be in */
#define DACM_NO_SUCH_ROW         UINT32_C(17) /* there is no such row to remove */
#define DACM_NOT_THE_GRANTOR     UINT32_C(18) /* the grant is another grantor's */
#define DACM_TABLE_FULL          UINT32_C(19) /* no row is free */
#define DACM_NO_EDITOR           UINT32_C(20) /* without a role, nobody but the custodian may edit the list */

/* Privileges: bit n of a set is position n. Positions 7 to 31 are the host's own. */
#define DACM_READ            UINT32_C(0x01)
#define DACM_REPLACE         UINT32_C(0x02)
#define DACM_DISCARD         UINT32_C(0x04)
#define DACM_ANNOTATE        UINT32_C(0x08)
#define DACM_CREATE_ITEMS    UINT32_C(0x10)
#define DACM_DEFINE_SUBJECTS UINT32_C(0x20)
#define DACM_EDIT_LIST       UINT32_C(0x40)
#define DACM_ALL             UINT32_C(0xffffffff)

/* How many positions a set has. */
#define DACM_POSITIONS 32

/* The kinds of a line. Lines for the owner and for everyone have subject 0. */
#define DACM_ITSELF   UINT32_C(0)
#define DACM_GROUP    UINT32_C(1)
#define DACM_OWNER    UINT32_C(2)
#define DACM_EVERYONE UINT32_C(3)

/*
 * The flags of an item. DACM_FOLDER_APPLIES is out of range for an item without a folder. An item that has a folder but
 * not this flag is in the folder, and that has no effect.
 */
#define DACM_IS_LIST        UINT32_C(1)
#define DACM_LOCKED         UINT32_C(2)
#define DACM_FOLDER_APPLIES UINT32_C(4) /* the folder's permission set applies too */

/* The rules of an explanation. The first that applies decides. */
#define DACM_RULE_CUSTODIAN     UINT32_C(1) /* the subject is the custodian, who has every privilege */
#define DACM_RULE_OWNER_LINE    UINT32_C(2) /* the subject owns the item, and the list has a line for the owner */
#define DACM_RULE_OWN_LINE      UINT32_C(3) /* the list has a line for the subject itself, who may be the owner */
#define DACM_RULE_GROUP_LINE    UINT32_C(4) /* the list has a line for a group above the subject; the nearest decides */
#define DACM_RULE_NOTHING_FOUND UINT32_C(5) /* there is no such line, or no list */

/* Stands for steps where a subject is outside of the tree. No count of steps is as high. */
#define DACM_STEPS_OUTSIDE UINT32_C(0xffffffff)

/*
 * Which rule decided, and what makes up the item's own set: it is the privileges in `operations` that are also in
 * `rule_set`, `everyone_set` or `role_set`. Where `folder` is 0, the own set is the permission set. Otherwise the
 * permission set is what the own set shares with the permission set on that folder. So ask about the folder next, and
 * so on until `folder` is 0: what all these own sets share is the permission set. A refused call has 0 in every field
 * but the number. A newer version may append fields, so header and archive must be of one version.
 */
typedef struct {
    uint32_t number;       /* DACM_DONE, or the refusal */
    uint32_t rule;         /* the rule that decided */
    uint32_t group;        /* for DACM_RULE_GROUP_LINE the subject whose group line decided, maybe 0; otherwise 0 */
    uint32_t rule_set;     /* what that rule gives: DACM_ALL, the privileges of the line, or 0 if nothing was found */
    uint32_t everyone_set; /* what the line for everyone adds: 0 without such a line, and for the custodian */
    uint32_t role_set;     /* what the role adds on this item, whether or not it is in the operation set */
    uint32_t operations;   /* the operation set */
    uint32_t steps;        /* from the item's owner up to the grant's domain, as dacm_steps_up counts them;
                              DACM_STEPS_OUTSIDE also where the role is not granted */
    uint32_t folder;       /* the item's folder if it has DACM_FOLDER_APPLIES, otherwise 0 */
} dacm_explanation;

/* The calls that ask. */

/* Is this an image that the other calls work on? */
dacm_answer dacm_check(const uint8_t *image, size_t length);

/* Result: the operation set of a subject under a role. */
dacm_answer dacm_operation_set(const uint8_t *image, size_t length, dacm_subject subject, dacm_role role);

/*
 * Result: the permission set of a subject under a role on an item. It is the item's own set or, where the item's folder
 * applies, what that shares with the permission set on the folder.
 */
dacm_answer dacm_permission_set(const uint8_t *image, size_t length, dacm_subject subject, dacm_role role,
                                dacm_item item);

/*
 * Which rule decided the item's own set, what makes it up, and which folder applies too. It is refused where
 * dacm_permission_set is.
 */
dacm_explanation dacm_explain(const uint8_t *image, size_t length, dacm_subject subject, dacm_role role,
                              dacm_item item);

/*
 * How many subjects have each privilege in their permission set on an item, without claiming a role. counts[n] receives
 * the number for position n, whatever it held before. The custodian is counted. `entries` must be DACM_POSITIONS.
 */
dacm_answer dacm_count_holders(const uint8_t *image, size_t length, dacm_item item, uint32_t *counts, size_t entries);

/* Result: how many lines a list has. They are consecutive in the image, 16 bytes each. */
dacm_answer dacm_list_count(const uint8_t *image, size_t length, dacm_item list);

/* The offset of the first line of a list; 0 where the call is refused or the list has no lines. */
size_t dacm_list_start(const uint8_t *image, size_t length, dacm_item list);

/* Result: the lowest subject other than the custodian that may edit a list without claiming a role. */
dacm_answer dacm_find_editor(const uint8_t *image, size_t length, dacm_item list);

/*
 * Result: how many steps lead from a subject up to the root of a tree, from each subject to its parent. 0 for the root
 * itself, DACM_STEPS_OUTSIDE for a subject that is outside of the root's tree. Both must be in use; there is no caller.
 */
dacm_answer dacm_steps_up(const uint8_t *image, size_t length, dacm_subject subject, dacm_subject root);

/* The calls that change the tables. */

/*
 * Define a subject below a parent. Result: its number. Of the given privileges it gets those that the caller's own row
 * has too.
 */
dacm_answer dacm_define_subject(uint8_t *image, size_t length, dacm_subject caller, dacm_role role, dacm_subject parent,
                                uint32_t privileges);

/*
 * Grant a role to a receiver, over a domain in the caller's tree. If the caller has granted this role to this receiver
 * before, the earlier grant is overwritten.
 */
dacm_answer dacm_set_grant(uint8_t *image, size_t length, dacm_subject caller, dacm_subject receiver, dacm_role role,
                           dacm_subject domain, uint32_t privileges);

/* Take a role back from its receiver. */
dacm_answer dacm_remove_grant(uint8_t *image, size_t length, dacm_subject caller, dacm_subject receiver,
                              dacm_role role);

/* Set a line of a list. The list's line of the same kind for the same subject is overwritten. */
dacm_answer dacm_set_line(uint8_t *image, size_t length, dacm_subject caller, dacm_role role, dacm_item list,
                          uint32_t kind, dacm_subject subject, uint32_t privileges);

/* Remove a line of a list. */
dacm_answer dacm_remove_line(uint8_t *image, size_t length, dacm_subject caller, dacm_role role, dacm_item list,
                             uint32_t kind, dacm_subject subject);

/*
 * Create an item that the caller owns, governed by a list or by none, in a folder or in none. Result: its number. Any
 * item in use can be a folder, and no right on it is needed. The folder of an item never changes.
 */
dacm_answer dacm_create_item(uint8_t *image, size_t length, dacm_subject caller, dacm_role role, dacm_item list,
                             uint32_t flags, dacm_item folder);

/* Bind an item to a list, or to none. */
dacm_answer dacm_bind(uint8_t *image, size_t length, dacm_subject caller, dacm_item item, dacm_item list);

/* Hand an item over to a new owner. */
dacm_answer dacm_hand_over(uint8_t *image, size_t length, dacm_subject caller, dacm_item item, dacm_subject owner);

#ifdef __cplusplus
}
#endif

#endif
