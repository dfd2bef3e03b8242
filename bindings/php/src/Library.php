<?php

declare(strict_types=1);

namespace Silkwaram;

use FFI;
use LogicException;
use RuntimeException;

/**
 * The shared library, and room for what its calls answer. The other classes make its calls.
 *
 * It is the file that SILKWARAM_LIBRARY names in the environment of the process. If none is named,
 * it is what `ffi.preload` has loaded, or else `libsilkwaram.so.0`, as the system's loader finds
 * it.
 *
 * @internal
 */
final class Library
{
    /** The version of this package. The library has to have the same major and minor number. */
    public const VERSION = '0.4.0';

    /** Flags of what takes something in, and of a summary. */
    public const CHECK_OWN = 8;
    public const LABELS = 16;

    private const NAME = 'libsilkwaram.so.0';
    private const DECLARATIONS = __DIR__ . '/silkwaram.h';
    /** What the declarations have as FFI_SCOPE. */
    private const SCOPE = 'silkwaram';
    /** The bytes of room for an answer, before it is known how many it needs. */
    private const FIRST_ROOM = 1024;

    /** How many rules are kept. */
    private const MOST_RULES = 64;

    private const EXTENDED = 1;
    private const LENIENT = 2;
    private const WIDEN = 4;

    private const FOUND = 0;
    private const NOTHING = 1;
    private const REFUSED = 3;
    private const NO_MEMORY = 5;

    private const HAS_OFFSET = 1;
    private const HAS_ROW = 2;
    private const HAS_COUNT = 4;
    private const OF_SECOND = 8;

    private static ?self $loaded = null;

    private FFI $calls;
    private FFI\CData $told;
    private FFI\CData $toldAt;
    private FFI\CData $room;
    /** Rules by their texts, each with the bytes of these. */
    private array $rules = [];

    /**
     * The library of this process, or of this request.
     *
     * @throws FFI\Exception if it is not there, is another one, or if `ffi.enable` forbids its use
     * @throws RuntimeException if it has another version
     */
    public static function loaded(): self
    {
        return self::$loaded ??= new self(self::calls());
    }

    private function __construct(FFI $calls)
    {
        $this->calls = $calls;
        $number = intdiv($this->version(), 10000) . '.' . intdiv($this->version(), 100) % 100;
        if (!str_starts_with(self::VERSION, "$number.")) {
            $package = self::VERSION;
            throw new RuntimeException("the library is $number, and silkwaram for PHP $package");
        }
        $this->told = $calls->new('sw_told');
        $this->toldAt = FFI::addr($this->told);
        $this->room = $calls->new('char[' . self::FIRST_ROOM . ']');
    }

    private static function calls(): FFI
    {
        $named = getenv('SILKWARAM_LIBRARY', true) ?: null;
        if ($named === null) {
            try {
                return FFI::scope(self::SCOPE);
            } catch (FFI\Exception) {
                // (nothing was preloaded, or FFI is not allowed, as the next call says)
            }
        }
        // (what begins with # is for `ffi.preload` alone)
        $declared = preg_replace('/^#.*/m', '', file_get_contents(self::DECLARATIONS));
        return FFI::cdef($declared, $named ?? self::NAME);
    }

    /** The version of the library: 10000 * major + 100 * minor + patch. */
    public function version(): int
    {
        return $this->calls->sw_version();
    }

    /** The flags of a question. */
    public static function asked(bool $lenient, bool $widen, bool $extended): int
    {
        return ($lenient ? self::LENIENT : 0) | ($widen ? self::WIDEN : 0)
            | ($extended ? self::EXTENDED : 0);
    }

    /** The rules of an offer and a table of fallbacks, which are kept: most programs have few. */
    public function rules(string $offer, string $fallbacks = ''): FFI\CData
    {
        $texts = strlen($offer) . " $offer$fallbacks";
        if (!isset($this->rules[$texts])) {
            $this->rules = count($this->rules) < self::MOST_RULES ? $this->rules : [];
            $this->rules[$texts] = $this->made($offer, $fallbacks);
        }
        return $this->rules[$texts][0];
    }

    /**
     * New rules, with the bytes of their texts.
     *
     * @return list<FFI\CData>
     */
    private function made(string $offer, string $fallbacks): array
    {
        $made = [$rules = $this->calls->new('sw_rules')];
        foreach (['offer' => $offer, 'fallbacks' => $fallbacks] as $name => $text) {
            $made[] = $bytes = $this->calls->new('char[' . max(strlen($text), 1) . ']');
            FFI::memcpy($bytes, $text, strlen($text));
            $rules->$name = $this->calls->cast('char *', FFI::addr($bytes));
            $rules->{"{$name}_len"} = strlen($text);
        }
        return $made;
    }

    /** A handle that is not open. */
    public function handle(): FFI\CData
    {
        return $this->calls->new('sw_site');
    }

    public function free(FFI\CData $handle): void
    {
        $this->calls->sw_site_free(FFI::addr($handle));
    }

    /** Makes `other` one more handle of the same site. */
    public function share(FFI\CData $handle, FFI\CData $other): void
    {
        $this->check($this->calls->sw_site_share(FFI::addr($handle), FFI::addr($other)));
    }

    /** Makes a call that has no answer. A text is passed with its length. */
    public function act(string $call, string|int|FFI\CData ...$given): void
    {
        $words = self::words($given);
        $words[] = $this->toldAt;
        $this->check($this->calls->$call(...$words));
    }

    /** What a call answers, whether it found something or not. */
    public function ask(string $call, string|int|FFI\CData ...$given): string
    {
        return $this->answer($call, self::words($given))[1];
    }

    /** What a call answers, or null if it found nothing. */
    public function find(string $call, string|int|FFI\CData ...$given): ?string
    {
        [$status, $answer] = $this->answer($call, self::words($given));
        return $status === self::FOUND ? $answer : null;
    }

    /**
     * Makes a call with some room, and once more with what its answer needs.
     *
     * @param list<string|int|FFI\CData> $words
     * @return array{int, string}
     */
    private function answer(string $call, array $words): array
    {
        [$room, $size] = [$this->room, self::FIRST_ROOM];
        while (true) {
            $status = $this->calls->$call(...[...$words, $room, $size, $this->toldAt]);
            $this->check($status);
            $needed = $this->told->len;
            if ($needed <= $size) {
                return [$status, FFI::string($room, $needed)];
            }
            [$room, $size] = [$this->calls->new("char[$needed]"), $needed];
        }
    }

    /**
     * What a call is passed: a handle by its address, a text and its length, a number.
     *
     * @param array<string|int|FFI\CData> $given
     * @return list<string|int|FFI\CData>
     */
    private static function words(array $given): array
    {
        $words = [];
        foreach ($given as $it) {
            if (is_string($it)) {
                $words[] = $it;
                $words[] = strlen($it);
            } else {
                $words[] = is_int($it) ? $it : FFI::addr($it);
            }
        }
        return $words;
    }

    private function check(int $status): void
    {
        switch ($status) {
            case self::FOUND:
            case self::NOTHING:
                return;
            case self::REFUSED:
                throw $this->refused();
            case self::NO_MEMORY:
                throw new Refused(26, 'out of memory');
            default:
                throw new LogicException("the library has the status $status");
        }
    }

    private function refused(): Refused
    {
        // (read first, since the calls below report to the same place)
        [$number, $given] = [$this->told->number, $this->told->given];
        $offset = $given & self::HAS_OFFSET ? $this->told->offset : null;
        $row = $given & self::HAS_ROW ? $this->told->row : null;
        $count = $given & self::HAS_COUNT ? $this->told->count : null;
        $isOfSecond = ($given & self::OF_SECOND) !== 0;
        $text = $this->ask('sw_refusal_text', $number);
        $wanted = $this->ask('sw_refusal', $number);
        $word = $this->ask('sw_refusal_code', $number);
        return new Refused($number, $text, $wanted, $offset, $row, $count, $isOfSecond, $word);
    }
}
