# A script may have no command but those of a block without lines. It writes nothing.
par
end
