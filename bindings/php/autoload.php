<?php

/*
 * All classes of the package: for a program without Composer, and as the file of `opcache.preload`.
 */

declare(strict_types=1);

foreach (['Refused', 'Library', 'Tags', 'Questions', 'WrittenSite', 'Site', 'Reader'] as $name) {
    require_once __DIR__ . "/src/$name.php";
}
