"""Which devices enter and leave zones, as their positions come: the command rtfilter-fence, whose page is docs/fence.md."""
