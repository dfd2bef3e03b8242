// negotiator's `languages` and `language`, in Debian's folder or the one that NODE_PATH names. It
// gives no weights, and has no default.
import {createRequire} from 'node:module';

const require = createRequire(import.meta.url);
const Negotiator = require(`${process.env.NODE_PATH ?? '/usr/share/nodejs'}/negotiator`);
const asks = (field) => new Negotiator({headers: {'accept-language': field}});

export const basicFiltering = (field, tags) => asks(field).languages(tags);
export const lookup = (field, tags, fallback) =>
  asks(field).language(tags) ?? fallback;
