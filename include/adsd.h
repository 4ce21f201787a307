/* adsd.h: the proved access check of Active Directory's rules, inheritance and the formats of descriptors, for C.
 *
 * Made by tools/header from the exports of crates/adsd_c, whose contracts are proved: don't edit it.
 *
 * What goes in is bytes, each a pointer and a number of bytes; nothing of it is changed, kept or freed. Where a call says that
 * something isn't given, the number is 0. No pointer is NULL: where there are no bytes, give any pointer that is valid, as
 * that of ADSD_NOTHING.
 *
 * What comes out goes into memory of the caller. Of a buffer `out` with room for `out_size` bytes the start is written, and
 * `*size` tells how many bytes the answer has. With too little room the code is ADSD_ROOM, the buffer stays as it was, and
 * `*size` tells what is needed: so a first call may give 0 bytes of room. Texts end without a zero. What goes in and what
 * comes out don't overlap.
 *
 * The result is a code: ADSD_OK, or why there is no answer. Then nothing is granted: a mask is 0.
 *
 * A call takes memory by malloc and gives it back by free before it returns. It never ends the process, waits, or reads or
 * writes anything but what is given to it. So any number of threads may call at the same time, but no signal handler may.
 *
 * Bytes: a descriptor is self-relative ([MS-DTYP] 2.4.6); an identifier (SID) is 8 to 68 bytes ([MS-DTYP] 2.4.2.2); a GUID is
 * 16 bytes in packet order ([MS-DTYP] 2.3.4.2). A token is: 2; the sum of the privileges (1 security, 2 take ownership, 4
 * restore); the user, the owner and the primary group, each an identifier; the number of groups in two bytes, the most
 * significant first, at most 1,024, and for each a byte, 0 for one that is enabled and 1 for one that only denies, and its
 * identifier; the number of restricting identifiers in two bytes, at most 1,024, and each of them. The owner is the user or
 * an enabled group. A mask of rights is that of [MS-ADTS] 5.1.3.2.
 */
#ifndef ADSD_H
#define ADSD_H

#include <stddef.h>
#include <stdint.h>

#ifdef __cplusplus
extern "C" {
#endif

#define ADSD_NOTHING ((const uint8_t *)"")

/* There is an answer. */
#define ADSD_OK 0
/* Memory ran out. */
#define ADSD_MEMORY 1
/* There is too little room for the answer. */
#define ADSD_ROOM 2
/* The bytes of the descriptor are none. */
#define ADSD_SD 3
/* The bytes of the parent's descriptor are none. */
#define ADSD_PARENT 4
/* The bytes of the token are none. */
#define ADSD_TOKEN 5
/* The bytes of the object's own identifier are neither one nor absent. */
#define ADSD_OWN_SID 6
/* The bytes of the path aren't none to three GUIDs. */
#define ADSD_PATH 7
/* The levels make no tree. */
#define ADSD_TREE 8
/* The bytes or the text of an identifier are none. */
#define ADSD_SID 9
/* The bytes or the text of a GUID are none. */
#define ADSD_GUID 10
/* A list takes more than 65,535 bytes. */
#define ADSD_TOO_LONG 11
/* The bytes are the normal bytes of no descriptor. */
#define ADSD_NORMAL 12
/* The bytes of the domain's identifier are neither one nor absent. */
#define ADSD_DOMAIN 13
/* No part begins here. */
#define ADSD_SDDL_PART 32
/* A part begins here that was there before. */
#define ADSD_SDDL_REPEATED 33
/* No security identifier and no alias begins here. */
#define ADSD_SDDL_SID 34
/* An alias of a domain's principal stands here, and no domain is given or the given one has 15 sub-authorities. */
#define ADSD_SDDL_DOMAIN 35
/* No type of an entry begins here. */
#define ADSD_SDDL_ACE_KIND 36
/* Neither a flag nor the end of the flags stands here. */
#define ADSD_SDDL_FLAG 37
/* Neither a right nor the end of the rights stands here. */
#define ADSD_SDDL_RIGHTS 38
/* Neither a GUID nor the end of its field stands here, or a GUID stands here in an entry that has none. */
#define ADSD_SDDL_GUID 39
/* The `;` or `)` that has to stand here doesn't. */
#define ADSD_SDDL_SHAPE 40

/* A node of a tree of object types: how far it stands below the root, and what it is about. The first one alone
 * has level 0, and a level is at most one more than that of the node before it. */
typedef struct {
    uint32_t level;
    uint8_t guid[16];
} adsd_type_node;

/* The rights of the wanted mask, after generic mapping, that the self-relative descriptor grants to the token
 * ([MS-DTYP] 2.5.3.2, [MS-ADTS] 5.1.3.3). The path is none to three GUIDs of 16 bytes, from the object's class
 * down: for an attribute its object's class, its property set where it is in one, and itself. own is the
 * identifier that the object has of its own; no bytes say that it has none. With any code but ADSD_OK no right
 * is given.
 *
 * Codes: The first in this order: ADSD_SD where the bytes are no descriptor with owner, group and DACL,
 * ADSD_TOKEN where they are no token, ADSD_OWN_SID where they are neither an identifier nor absent, ADSD_PATH
 * where they aren't none to three GUIDs. */
uint32_t adsd_granted(const uint8_t *sd, size_t sd_size, const uint8_t *token, size_t token_size, const uint8_t *own,
                size_t own_size, const uint8_t *path, size_t path_size, uint32_t want, uint32_t *mask);

/* The same of a descriptor in its normal bytes, as adsd_normal_from_sd gives them: nothing is made of it, and no
 * memory taken for it.
 *
 * Codes: The first in this order: ADSD_NORMAL where the bytes are the normal bytes of no descriptor, and then as
 * adsd_granted. */
uint32_t adsd_granted_normal(const uint8_t *normal, size_t normal_size, const uint8_t *token, size_t token_size, const uint8_t
                *own, size_t own_size, const uint8_t *path, size_t path_size, uint32_t want, uint32_t *mask);

/* The rights of the wanted mask, after generic mapping, that the self-relative descriptor grants to the token at
 * each node of a tree of object types ([MS-DTYP] 2.5.3.2), in the order of the nodes: a leaf has what
 * adsd_granted answers for the GUIDs from the root down to it, and any other node what all its children have.
 * own is the identifier that the object has of its own; no bytes say that it has none. Masks after those of the
 * nodes become 0. With any code but ADSD_OK no right is given at any node.
 *
 * Codes: The first in this order: ADSD_SD where the bytes are no descriptor with owner, group and DACL,
 * ADSD_TOKEN where they are no token, ADSD_OWN_SID where they are neither an identifier nor absent, ADSD_TREE
 * where the levels make no tree, ADSD_ROOM where there is room for fewer masks than there are nodes. */
uint32_t adsd_check_tree(const uint8_t *sd, size_t sd_size, const uint8_t *token, size_t token_size, const uint8_t *own,
                size_t own_size, const adsd_type_node *nodes, size_t nodes_count, uint32_t want, uint32_t *masks,
                size_t masks_count);

/* The normal bytes of a self-relative descriptor whose owner, group and DACL are there: the form that
 * adsd_granted_normal takes, over which a check needs no memory for it. A descriptor has one such form.
 *
 * Codes: ADSD_SD where the bytes are no such descriptor. */
uint32_t adsd_normal_from_sd(const uint8_t *sd, size_t sd_size, uint8_t *out, size_t out_size, size_t *size);

/* The parts that are asked for of the descriptor whose normal bytes are given, as a self-relative one: 1 the
 * owner, 2 the group, 4 the DACL, 8 the SACL, 15 all.
 *
 * Codes: ADSD_NORMAL where the bytes are the normal bytes of no descriptor; then ADSD_TOO_LONG where a list that
 * is asked for takes more than 65,535 bytes. */
uint32_t adsd_sd_from_normal(const uint8_t *normal, size_t normal_size, uint8_t parts, uint8_t *out, size_t out_size, size_t
                *size);

/* The self-relative descriptor of an object of the class, from its own one and its parent's ([MS-DTYP] 2.5.3.4):
 * its own entries without those that were inherited before, and after them in each list that isn't protected
 * what the parent's pass down. The class is a GUID in 16 bytes.
 *
 * Codes: The first in this order: ADSD_PARENT and ADSD_SD where these bytes are no descriptor with owner, group
 * and DACL, ADSD_GUID where the class isn't 16 bytes, ADSD_TOO_LONG where a list of the answer would take more
 * than 65,535 bytes. */
uint32_t adsd_inherit(const uint8_t *parent, size_t parent_size, const uint8_t *sd, size_t sd_size, const uint8_t
                *object_class, size_t object_class_size, uint8_t *out, size_t out_size, size_t *size);

/* The self-relative descriptor without the entries that were inherited.
 *
 * Codes: ADSD_SD where the bytes are no descriptor with owner, group and DACL; then ADSD_TOO_LONG where a list
 * of the answer would take more than 65,535 bytes. */
uint32_t adsd_explicit(const uint8_t *sd, size_t sd_size, uint8_t *out, size_t out_size, size_t *size);

/* The bytes of the identifier of a text ([MS-DTYP] 2.4.2), 8 to 68.
 *
 * Codes: ADSD_SID where the text is no identifier's. */
uint32_t adsd_sid_from_text(const uint8_t *text, size_t text_size, uint8_t *out, size_t out_size, size_t *size);

/* The text of an identifier ([MS-DTYP] 2.4.2.1), which is given in all of the bytes. No zero stands after it.
 *
 * Codes: ADSD_SID where the bytes are no identifier. */
uint32_t adsd_sid_to_text(const uint8_t *sid, size_t sid_size, uint8_t *out, size_t out_size, size_t *size);

/* The 16 bytes of the GUID of a text of 36 characters ([MS-DTYP] 2.3.4), in packet order.
 *
 * Codes: ADSD_GUID where the text is no GUID's. */
uint32_t adsd_guid_from_text(const uint8_t *text, size_t text_size, uint8_t *out, size_t out_size, size_t *size);

/* The text of a GUID ([MS-DTYP] 2.3.4.3 without the braces), 36 characters with lower-case digits.
 *
 * Codes: ADSD_GUID where the bytes aren't 16. */
uint32_t adsd_guid_to_text(const uint8_t *guid, size_t guid_size, uint8_t *out, size_t out_size, size_t *size);

/* The self-relative descriptor ([MS-DTYP] 2.4.6) of a text in SDDL ([MS-DTYP] 2.5.1). Any part may be absent.
 * The aliases of a domain's principals may stand where the domain's identifier is given; no bytes say that it
 * isn't.
 *
 * Codes: ADSD_DOMAIN where the bytes of the domain are neither an identifier nor absent; then the codes from
 * ADSD_SDDL_PART to ADSD_SDDL_SHAPE where the text goes wrong, with the number of bytes before that place in
 * size; then ADSD_TOO_LONG where a list takes more than 65,535 bytes. */
uint32_t adsd_sd_from_sddl(const uint8_t *text, size_t text_size, const uint8_t *domain, size_t domain_size, uint8_t *out,
                size_t out_size, size_t *size);

/* The one canonical text in SDDL of the parts that a self-relative descriptor has. No zero stands after it.
 *
 * Codes: ADSD_SD where the bytes are no self-relative descriptor. */
uint32_t adsd_sd_to_sddl(const uint8_t *sd, size_t sd_size, uint8_t *out, size_t out_size, size_t *size);

#ifdef __cplusplus
}
#endif

#endif
