// What an office takes at most, as docs/RULES.md says. acceptance/front/test_refusals.py compares these numbers with the rules'.

export const MOST_UNITS = 200_000;
export const LAST_UNIT = 100_000_000;
export const MOST_CONTAINERS = 100_000;
export const DEEPEST = 64;
export const LONGEST_NAME = 100; // bytes
export const MOST_PERMITS = 100;
export const LARGEST_FILE = 8 * 1024 * 1024;
