"""In what the kernel counts the items of zones and nodes that /proc/zoneinfo shows, in Linux 5.0 to 6.18."""
from dataclasses import dataclass

from vmtrace import BadInput, shown

PAGES, HUGE_PAGES, KIB, TREE_NODES = "pages", "huge pages", "KiB", "tree nodes"
STANDING = {
    PAGES: """
        nr_free_pages nr_free_pages_blocks nr_free_cma nr_unaccepted nr_zone_inactive_anon nr_zone_active_anon
        nr_zone_inactive_file nr_zone_active_file nr_zone_unevictable nr_zone_write_pending nr_mlock nr_bounce
        nr_zspages nr_inactive_anon nr_active_anon nr_inactive_file nr_active_file nr_unevictable nr_slab_reclaimable
        nr_slab_unreclaimable nr_isolated_anon nr_isolated_file nr_anon_pages nr_mapped nr_file_pages nr_dirty
        nr_writeback nr_writeback_temp nr_unstable nr_shmem nr_kernel_misc_reclaimable nr_page_table_pages
        nr_sec_page_table_pages nr_iommu_pages nr_swapcached nr_hugetlb nr_balloon_pages nr_kernel_file_pages""",
    HUGE_PAGES: """
        nr_anon_transparent_hugepages nr_file_hugepages nr_file_pmdmapped nr_shmem_hugepages nr_shmem_pmdmapped""",
    KIB: "nr_kernel_stack nr_shadow_call_stack",
    TREE_NODES: "workingset_nodes",
}
CUMULATIVE = {
    PAGES: """
        nr_dirtied nr_written nr_throttled_written nr_vmscan_write nr_vmscan_immediate_reclaim nr_foll_pin_acquired
        nr_foll_pin_released workingset_refault workingset_refault_anon workingset_refault_file workingset_activate
        workingset_activate_anon workingset_activate_file workingset_restore workingset_restore_anon
        workingset_restore_file pgpromote_success pgpromote_candidate pgpromote_candidate_nrl pgdemote_kswapd
        pgdemote_direct pgdemote_khugepaged pgdemote_proactive""",
    TREE_NODES: "workingset_nodereclaim",
}
EVENTS = "numa_"


@dataclass(frozen=True)
class Unit:
    """What is counted, and whether the number only grows, as that of pages ever written does."""

    name: str
    is_cumulative: bool


UNITS = {item: Unit(unit, table is CUMULATIVE)
         for table in (STANDING, CUMULATIVE) for unit, items in table.items() for item in items.split()}


def counts_events(item):
    """Whether each CPU counts the item as events, without a threshold: the numa_ items."""
    return item.startswith(EVENTS)


def check_item(item, name):
    """The item, of that file, is one whose unit is known and that a law speaks of."""
    if counts_events(item):
        raise BadInput(f"{name}: '{shown(item)}' counts events, and no law says how far such a number can be off")
    if item not in UNITS:
        raise BadInput(f"{name}: the unit of '{shown(item)}' isn't known, and only items with a known one are shown")
