# Completion of sdjwt-keys for fish: its commands, their options, and names of files.

set -l algs ES256 ES384 ES512 EdDSA Ed25519 PS256 PS384 PS512 RS256 RS384 RS512 HS256 HS384 HS512

complete -c sdjwt-keys -n __fish_use_subcommand -l version -d 'print the version'
complete -c sdjwt-keys -l help -d 'explain the command'
complete -c sdjwt-keys -n 'not __fish_use_subcommand' -l json -d 'print errors as JSON objects'

complete -c sdjwt-keys -n __fish_use_subcommand -f -a keygen -d 'make a key pair, or a symmetric key'
complete -c sdjwt-keys -n __fish_use_subcommand -f -a issue -d 'print the token of an order'
complete -c sdjwt-keys -n __fish_use_subcommand -f -a present -d 'print a token with the disclosures that are wanted'
complete -c sdjwt-keys -n __fish_use_subcommand -f -a verify -d 'print the claims of a token that is accepted'
complete -c sdjwt-keys -n __fish_use_subcommand -f -a inspect -d 'show what is in a token'
complete -c sdjwt-keys -n __fish_use_subcommand -f -a show -d 'print the JSON inside a token, unchecked'
complete -c sdjwt-keys -n __fish_use_subcommand -f -a convert -d 'print a token in another form, unchecked'
complete -c sdjwt-keys -n __fish_use_subcommand -f -a explain -d 'explain why a token or a file is refused'

complete -c sdjwt-keys -n '__fish_seen_subcommand_from keygen' -l alg -x -a "$algs" -d 'the algorithm'
complete -c sdjwt-keys -n '__fish_seen_subcommand_from keygen' -l form -x -a 'pem jwk' -d 'the form of the private key'
complete -c sdjwt-keys -n '__fish_seen_subcommand_from keygen' -l kid -x -d 'a name of the key'

complete -c sdjwt-keys -n '__fish_seen_subcommand_from issue' -l key -r -d 'the key that signs'
complete -c sdjwt-keys -n '__fish_seen_subcommand_from issue' -l alg -x -a "$algs" -d 'the algorithm'
complete -c sdjwt-keys -n '__fish_seen_subcommand_from issue' -l holder -r -d 'the public key of the holder'

complete -c sdjwt-keys -n '__fish_seen_subcommand_from present' -l want -x -d 'a place to show'
complete -c sdjwt-keys -n '__fish_seen_subcommand_from present' -l never -x -d 'a place that is never shown'
complete -c sdjwt-keys -n '__fish_seen_subcommand_from present' -l aud -x -d 'the verifier that it is for'
complete -c sdjwt-keys -n '__fish_seen_subcommand_from present' -l nonce -x -d 'what the verifier gave'
complete -c sdjwt-keys -n '__fish_seen_subcommand_from present' -l key -r -d 'the key of the holder'
complete -c sdjwt-keys -n '__fish_seen_subcommand_from present' -l alg -x -a "$algs" -d 'the algorithm of the holder'
complete -c sdjwt-keys -n '__fish_seen_subcommand_from present' -l issuer -r -d 'the key of the issuer'
complete -c sdjwt-keys -n '__fish_seen_subcommand_from present' -l now -x -d 'the time of the run'

set -l judges '__fish_seen_subcommand_from verify inspect'
complete -c sdjwt-keys -n $judges -l policy -r -d 'a file with a policy'
complete -c sdjwt-keys -n $judges -l key -r -d 'a key of the issuer'
complete -c sdjwt-keys -n $judges -l alg -x -a "$algs" -d 'an algorithm to accept'
complete -c sdjwt-keys -n $judges -l typ -x -d 'what typ in the header has to be'
complete -c sdjwt-keys -n $judges -l iss -x -d 'an issuer to accept'
complete -c sdjwt-keys -n $judges -l require -x -d 'a claim that has to be there'
complete -c sdjwt-keys -n $judges -l skew -x -d 'by how much clocks may differ'
complete -c sdjwt-keys -n $judges -l aud -x -d 'your own name'
complete -c sdjwt-keys -n $judges -l nonce -x -d 'the nonce that you gave'
complete -c sdjwt-keys -n $judges -l max-age -x -d 'how old the key binding token may be'
complete -c sdjwt-keys -n $judges -l holder -r -d 'keys of holders'
complete -c sdjwt-keys -n $judges -l holder-alg -x -a "$algs" -d 'an algorithm to accept of holders'
complete -c sdjwt-keys -n $judges -l now -x -d 'the time of the run'

complete -c sdjwt-keys -n '__fish_seen_subcommand_from inspect' -l html -r -d 'write a page'
complete -c sdjwt-keys -n '__fish_seen_subcommand_from inspect' -l color -x -a 'auto always never' -d 'when to colour'
complete -c sdjwt-keys -n '__fish_seen_subcommand_from inspect' -l full -d 'print long values whole'

complete -c sdjwt-keys -n '__fish_seen_subcommand_from convert' -f -a 'compact flat general' -d 'the form'
