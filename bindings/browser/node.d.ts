/** The package for Node: what pages have, and the calls of one module, which is loaded with the package. */
import { Calls, Site as OpenSite, WrittenSite as Written } from './silkwaram.js';

export * from './silkwaram.js';
export type Site = OpenSite;
export const Site: Calls['Site'];
export type WrittenSite = Written;
export const WrittenSite: Calls['WrittenSite'];
export const filter: Calls['filter'];
export const pick: Calls['pick'];
export const refusal: Calls['refusal'];
export const version: Calls['version'];
