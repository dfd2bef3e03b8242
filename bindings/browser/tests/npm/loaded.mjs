// A program for pages and for Node alike: it loads a module of its own.
import { Refused, load } from 'silkwaram';

const calls = await load();

export { Refused };
export const { Site, WrittenSite, filter, memory, pick, refusal, version } = calls;
