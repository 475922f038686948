// Lists of nodes, some at a time: a reply has no descriptor, and its socket counts what is unread.
#include "daemon.hpp"

#include <algorithm>
#include <cstring>
#include <new>

namespace sysmemd {

static bool kept_nodes(Domain &d, std::vector<sysmem_node> &all) {
    sysmem_node none;
    std::uint64_t count = 0;
    if (sysmem_nodes(&d.core, &none, 0, &count)) return false;
    all.resize(std::size_t(count) + 1);
    if (sysmem_nodes(&d.core, all.data(), std::size_t(count), &count)) return false;
    all.pop_back();
    return true;
}

bool Daemon::list_nodes(Connection &c, const sysmemd_request &q) {
    try {
        std::vector<sysmem_node> all;
        if (kept_nodes(*c.domain, all)) return list(c, q, all);
    } catch (const std::bad_alloc &) {
    }
    return fault(c, q, SYSMEM_NO_MEMORY);
}

// Those that the end's unit waits for, in its own unit and in those that are pending above it.
static std::vector<sysmem_node> find_waited(const std::vector<sysmem_node> &all, Key key, std::uint64_t tree) {
    std::unordered_map<Key, const sysmem_node *> by_key;
    std::unordered_map<Key, std::vector<const sysmem_node *>> by_head;
    for (const sysmem_node &n : all) {
        if (n.collection != tree) continue;
        by_key[key_of(n.key)] = &n;
        by_head[key_of(n.head)].push_back(&n);
    }
    auto find = [&](Key key) {
        auto at = by_key.find(key);
        return at == by_key.end() ? nullptr : at->second;
    };
    std::vector<sysmem_node> told;
    const sysmem_node *n = find(key);
    while (n && !(n->flags & (SYSMEM_NODE_ALLOCATED | SYSMEM_NODE_FAILED))) {
        Key head = key_of(n->head);
        for (const sysmem_node *m : by_head[head])
            if (!(m->flags & (SYSMEM_NODE_GONE | SYSMEM_NODE_RELEASED | SYSMEM_NODE_CONSTRAINED))) told.push_back(*m);
        const sysmem_node *top = find(head);
        if (!top || key_of(top->parent) == head) break;
        n = find(key_of(top->parent));
    }
    return told;
}

bool Daemon::waits_for(End &e, const sysmemd_request &q) {
    try {
        std::vector<sysmem_node> all;
        if (kept_nodes(*e.domain, all)) return list(e, q, find_waited(all, e.key, e.tree->id));
    } catch (const std::bad_alloc &) {
    }
    return fault(e, q, SYSMEM_NO_MEMORY);
}

// Sends those from q.left on that one message holds.
bool Daemon::list(Object &o, const sysmemd_request &q, const std::vector<sysmem_node> &all) {
    sysmemd_list m{};
    m.reply = empty_reply(o, q, SYSMEMD_LIST);
    m.reply.set = all.size();
    std::size_t from = std::min<std::size_t>(q.left, all.size());
    std::size_t count = std::min<std::size_t>(all.size() - from, SYSMEMD_NODES_AT_ONCE);
    m.reply.count = std::uint32_t(count);
    std::unordered_map<Key, const Who *> who;
    for (auto &t : o.domain->trees) {
        if (o.is == Is::End && t.second.get() != static_cast<End &>(o).tree) continue;
        for (auto &one : t.second->former) who[one.first] = &one.second;
        for (const End *end : t.second->ends) who[end->key] = &end->who;
    }
    for (std::size_t i = 0; i < count; i++) {
        m.nodes[i].node = all[from + i];
        auto at = who.find(key_of(all[from + i].key));
        if (at == who.end()) continue;
        std::memcpy(m.nodes[i].label, at->second->label, sizeof m.nodes[i].label);
        m.nodes[i].pid = at->second->pid;
        m.nodes[i].uid = at->second->uid;
    }
    send(o, m.reply, nullptr, 0, sizeof m.reply + count * sizeof m.nodes[0]);
    return true;
}

} // namespace sysmemd
