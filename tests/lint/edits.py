"""Each edit that must fail can be applied: its file exists, and has each text that it replaces exactly once. `rt ci` skips an edit that
can't be applied. And the wrong bodies that are listed here, and no others, have their edits, or the tests that refuse them."""

from source import ROOT

CRATES = ROOT / "crates"

# The wrong bodies that the gate tries, by the crate whose contract refuses them: those of what da65 lists, of the map that it lists by, and of
# the assembler. The first edit of a crate costs a second proof of it.
WRONG_BODIES = {
    "da65": """everything_as_bytes no_forced_absolute always_forced_absolute zero_page_by_image_name inner_label_after
        return_entry_without_minus_one dbyt_low_byte_first listing_before_refusal write_fault_without_a_fault writes_the_image
        sized_by_base_name words_joined_over_a_name drops_or_repeats_lines no_line_at_once empty_lines_passed_over
        lines_after_a_failed_write start_under_another_letter""",
    "info65": "last_range_wins later_include_replaces keeps_names_of_a_refused_include",
    "stmt65": "zero_page_for_a_later_name refuses_every_text accepts_a_doubled_name sized_by_base_name",
    "map65": """branch_wraps instruction_runs_into_data name_for_every_address write_fault_without_a_fault tries_again_after_a_fault
        empty_cells""",
}

# Those that `make wrong` tries, since each would cost the gate a check. Their stamps hold that they are refused on these sources (stamps.py).
# Those of run65, which has no contract, are not safe.
BY_HAND = {
    "map65": "failed_reader_is_at_its_end write_of_no_byte_accepted",
    "info65": "out_of_memory_past_a_mebibyte",
    "da65_cli": "failure_made_up flush_leaves_bytes message_after_a_failed_flush",
    "as65": """bytes_of_a_faulty_listing failed_write_called_a_difference image_cut_short listing_without_bytes_passed_on
        write_fault_passed_over""",
    "files65": "fault_of_a_later_line syntax_called_another_fault",
    "reach65": "no_target_followed range_with_a_taken_byte goes_on_before_its_text",
    "trace65": "setting_not_compared proposals_left_out longer_item_passed_over hidden_instruction_not_reached",
    "html65": """unescaped_text_read_as_text lost_line_passed_over other_text_passed_over link_to_no_element
        page_despite_its_fault""",
    "name65": """changed_line_not_read comments_left_out fill_moves_nothing lines_left_out_of_order
        next_operand_changes_too numbers_change operation_changes other_operand_changes used_constants_left_out""",
    "run65": "program_counter_overflows decimal_difference_overflows",
    "move65": "text_is_not_read_back moved_address_overflows",
}

# Those that a test refuses, each with its tests, by the file of these. A contract can't say whether memory ran out, or how much there was.
TESTED_BODIES = {
    "text_rows": {"always_bad_words": "calls_return_what_rows_say"},
    "worked": {"always_out_of_memory": "runs_give_what_rows_say calls_give_what_runs_give"},
    "memory": {
        "always_out_of_memory": "each_allocation_refused_in_turn each_allocation_of_a_large_image_refused_in_turn",
        "lists_beside_cells": "run_allocates_as_its_parts each_size_allocates_as_its_parts",
    },
}


def faults(edit, crate):
    """Why an edit of a crate can't be applied: its pairs are, in their order, to what its files hold."""
    texts, file, old = {}, None, ""
    for line in edit.read_text().splitlines():
        key, _, value = line.partition(": ")
        if key == "file":
            file = crate / value
            if not file.is_file():
                yield f"there is no file {value}"
                return
            texts.setdefault(file, file.read_text())
        elif key == "old":
            old, count = value, texts[file].count(value)
            if count != 1:
                yield f"{'not' if count == 0 else 'more than once'} in {file.name}: {value}"
        elif key == "new":
            texts[file] = texts[file].replace(old, value, 1)


def check_folder(folder_of, listed):
    """The edits in the folders of crates are those that are listed, and can be applied."""
    for crate in sorted(path.name for path in CRATES.iterdir()):
        found = {edit.stem: edit for edit in folder_of(crate).glob("*.edit")}
        names = set(listed.get(crate, "").split())
        yield from (f"{crate}/{name}: an edit of a wrong body that is not listed" for name in sorted(found.keys() - names))
        yield from (f"{crate}/{name}: a wrong body without its edit" for name in sorted(names - found.keys()))
        for name, edit in sorted(found.items()):
            yield from (f"{crate}/{name}: {fault}" for fault in faults(edit, CRATES / crate))


def check(write):
    yield from check_folder(lambda crate: CRATES / crate / "must-fail", WRONG_BODIES)
    yield from check_folder(lambda crate: ROOT / "tests" / "wrong" / crate, BY_HAND)
    for file, bodies in TESTED_BODIES.items():
        text = (CRATES / f"conformance/src/tests/{file}.rt").read_text()
        for body, tests in bodies.items():
            yield from (f"{body}: no test {test} in {file}.rt" for test in tests.split() if f"#[test]\nfn {test}(" not in text)
