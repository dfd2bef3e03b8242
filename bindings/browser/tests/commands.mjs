// Compares what `command` answers with what the command itself left (tests/library/commands.py).
import { command } from './command.mjs';

/** Returns a line; an Error names the first difference. */
export async function compare(_, questions) {
  for (const { words, input, wanted } of questions) {
    const got = await command(words, input);
    if (JSON.stringify(got) !== JSON.stringify(wanted)) {
      throw new Error(`${JSON.stringify(words)}: ${JSON.stringify(got)}, and not ${JSON.stringify(wanted)}`);
    }
  }
  return `${questions.length} command lines`;
}
