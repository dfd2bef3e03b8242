<?php

declare(strict_types=1);

namespace Silkwaram;

/**
 * The document of a site, which is asked as it is and never opened: for pages, which ask little.
 *
 * It has to be a document that Silkwaram wrote, or that another program wrote again in the same
 * form: with members and rows in their order, and without spaces. Most of it is not looked at. Given
 * other bytes a question returns, but a label may be missing without an error.
 */
final class WrittenSite extends Questions
{
    protected const CALLS = 'sw_text_';

    /**
     * @param string $document The content of the file of a site.
     * @throws Refused What does not read as a document (18 to 20), here or by a question.
     */
    public function __construct(string $document)
    {
        $this->library = Library::loaded();
        $this->held = $document;
        $this->filter('m', '*');
    }
}
