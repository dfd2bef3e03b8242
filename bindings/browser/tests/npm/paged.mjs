// A program for pages, which bindings/browser/tests/pages.py takes in place of the module.
export { load } from 'silkwaram';
