// A program for Node: it takes the calls of the package.
export { Refused, Site, WrittenSite, filter, pick, refusal, version } from 'silkwaram';
