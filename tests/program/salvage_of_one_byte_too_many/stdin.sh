# A file of 268,435,457 bytes whose first line isn't that of a journal.
yes | head -c 268435457
