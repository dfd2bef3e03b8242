<?php

declare(strict_types=1);

namespace Silkwaram;

use RuntimeException;

/** What is thrown if the library refuses something. docs/REFUSALS.md has each by its number. */
final class Refused extends RuntimeException
{
    /**
     * @param int $number The number, which is the code too. 26 is out of memory: the same call may
     *     be made again.
     * @param string $text What the command prints, with words in capitals for the numbers below.
     * @param string $wanted What was wanted, in a sentence.
     * @param int|null $offset The place in the refused text, in bytes from 0; null if it has none.
     * @param int|null $row The row of a document, from 0; null if it is of no row.
     * @param int|null $count The place of a text in its label, from 0 (11), how many texts a label
     *     has (12), or the place of a cell in the receiving site, from 0 (13); else null.
     * @param bool $ofSecond Whether it is of the second of two documents, as the new maps of
     *     `Site::update`.
     * @param string $word The word of the number, as `clock-ahead`.
     */
    public function __construct(
        public int $number,
        string $text,
        public string $wanted = '',
        public ?int $offset = null,
        public ?int $row = null,
        public ?int $count = null,
        public bool $ofSecond = false,
        public string $word = ''
    ) {
        $filled = str_replace('OFFSET', (string) ($offset ?? 'OFFSET'), $text);
        $filled = str_replace(['INDEX', 'COUNT', 'PLACE'], (string) $count, $filled);
        $where = $row === null ? '' : " in row $row";
        $where .= $ofSecond ? ' of the second document' : '';
        $hint = $wanted === '' ? '' : " ($wanted)";
        parent::__construct("refused $number: $filled$where$hint", $number);
    }
}
