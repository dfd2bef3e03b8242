<?php

declare(strict_types=1);

namespace Silkwaram;

/**
 * The reader of a request: the language that a page is in for them, and their labels of a site.
 *
 * A reader who excludes the default too (`*;q=0`) gets it nevertheless, as RFC 9110 section 12.5.4
 * allows; with `$strict` such a reader gets none. A header that is refused counts as none. These
 * are the rules of all front ends, the middleware for Python and Node and the module for nginx,
 * which give a reader the same answers.
 */
final class Reader
{
    private const OF_FIELD = [8, 9];

    private ?string $field;

    /**
     * @param string|null $field What the Accept-Language header holds, several of them joined with
     *     commas. Null, if there is none, counts as `*`.
     * @param string $default The language for readers who get no other.
     * @param string $offer The languages that readers are offered, written as the header is. If it
     *     is empty, that is all tags, and the labels of all languages but those of private use.
     * @param string $fallbacks Which language is next to which, as `zh-TW=zh-Hant, no=nb`.
     * @param bool $lenient Skips malformed elements of the header, and reads the rest. Without it
     *     such a header counts as none.
     * @param bool $widen Lets a language find its regions, as `en` finds `en-US`.
     * @param bool $strict Gives no language and no label to readers who exclude the default too.
     * @throws Refused The default (1 to 4), the offer (8, 9), the fallbacks (8, 31).
     */
    public function __construct(
        ?string $field,
        private string $default,
        private string $offer = '',
        private string $fallbacks = '',
        private bool $lenient = true,
        private bool $widen = true,
        private bool $strict = false
    ) {
        $this->field = $field;
        try {
            Tags::pick($field, [], lenient: $lenient);
        } catch (Refused $refused) {
            if (!in_array($refused->number, self::OF_FIELD, true)) {
                throw $refused;
            }
            $this->field = null;
        }
        $this->picked(null, []);
    }

    /**
     * The one of some tags that the reader gets.
     *
     * @param string[] $tags The languages that pages are in.
     * @return string|null The tag as it is in `$tags`, or null if there is none.
     * @throws Refused The tags in their order (1 to 4).
     */
    public function language(array $tags): ?string
    {
        return $this->found(fn (?string $field) => $this->picked($field, $tags));
    }

    /**
     * The label of a message that the reader gets.
     *
     * @param Questions $site A `Site` or a `WrittenSite`.
     * @return array{language: string, texts: list<string>, isDefault: bool}|null As by `lookup`.
     * @throws Refused The id (10).
     */
    public function label(Questions $site, string $id): ?array
    {
        return $this->found(fn (?string $field) => $site->lookup(
            $id,
            $field,
            $this->default,
            lenient: $this->lenient,
            widen: $this->widen,
            offer: $this->offer,
            fallbacks: $this->fallbacks
        ));
    }

    /** @param string[] $tags */
    private function picked(?string $field, array $tags): ?string
    {
        return Tags::pick(
            $field,
            $tags,
            $this->default,
            lenient: $this->lenient,
            widen: $this->widen,
            offer: $this->offer === '' ? '*' : $this->offer,
            fallbacks: $this->fallbacks
        );
    }

    /** What is found by the header; if that is nothing, what is found without one. */
    private function found(callable $ask): mixed
    {
        return $ask($this->field) ?? ($this->strict ? null : $ask(null));
    }
}
