/* The sizes and offsets that the library gives its structs; tools/c_interface.sh compiles this. */
#include "sysmem.h"

#define AT(type, field, offset) \
    _Static_assert(offsetof(type, field) == (offset), #type "." #field)
#define SIZE(type, size) _Static_assert(sizeof(type) == (size), #type)

SIZE(sysmem_core, 16);
AT(sysmem_core, is_open, 0);
AT(sysmem_core, core, 8);

SIZE(sysmem_call, 48);
AT(sysmem_call, kind, 0);
AT(sysmem_call, slot, 4);
AT(sysmem_call, generation, 8);
AT(sysmem_call, strength, 12);
AT(sysmem_call, collection, 16);
AT(sysmem_call, client, 24);
AT(sysmem_call, size, 32);
AT(sysmem_call, left, 36);
AT(sysmem_call, index, 40);
AT(sysmem_call, camping, 41);
AT(sysmem_call, at_least, 42);
AT(sysmem_call, children, 43);

SIZE(sysmem_reply, 48);
AT(sysmem_reply, kind, 0);
AT(sysmem_reply, slot, 4);
AT(sysmem_reply, generation, 8);
AT(sysmem_reply, detail, 12);
AT(sysmem_reply, id, 16);
AT(sysmem_reply, set, 24);
AT(sysmem_reply, count, 32);
AT(sysmem_reply, size, 36);
AT(sysmem_reply, index, 40);

SIZE(sysmem_key, 8);
AT(sysmem_key, slot, 0);
AT(sysmem_key, generation, 4);

SIZE(sysmem_held_buffer, 24);
AT(sysmem_held_buffer, collection, 0);
AT(sysmem_held_buffer, index, 8);
AT(sysmem_held_buffer, start, 12);
AT(sysmem_held_buffer, pages, 16);

SIZE(sysmem_fired_tracker, 16);
AT(sysmem_fired_tracker, tracker, 0);
AT(sysmem_fired_tracker, event, 8);

SIZE(sysmem_node, 72);
AT(sysmem_node, key, 0);
AT(sysmem_node, parent, 8);
AT(sysmem_node, head, 16);
AT(sysmem_node, collection, 24);
AT(sysmem_node, event, 32);
AT(sysmem_node, holder, 40);
AT(sysmem_node, flags, 48);
AT(sysmem_node, cause, 52);
AT(sysmem_node, origin, 56);
AT(sysmem_node, camping, 64);
AT(sysmem_node, at_least, 65);
AT(sysmem_node, size, 68);

SIZE(sysmem_holder, 16);
AT(sysmem_holder, client, 0);
AT(sysmem_holder, strong, 8);
AT(sysmem_holder, weak, 12);
