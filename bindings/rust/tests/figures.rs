//! Every function, at document 01's figures.
use altair_close::validator::*;
use altair_close::*;

const MAINNET: Settings = Settings::MAINNET;
const ETH: u64 = 1_000_000_000;
const FAR: u64 = FAR_FUTURE_EPOCH;

/// 32 * 10^9, active from epoch 0, with all flags
fn hit() -> [u64; LENGTH] {
    let mut v = validator::new(32 * ETH);
    (v[PREVIOUS_EPOCH_PARTICIPATION], v[CURRENT_EPOCH_PARTICIPATION]) = (7, 7);
    v
}

fn finality(slot: u64) -> Finality {
    Finality { slot, ..Finality::default() }
}

#[test]
fn slots_and_epochs() {
    assert_eq!(version(), VERSION);
    assert_eq!(integer_sqrt(160 * ETH), 400_000);
    assert_eq!(integer_sqrt(u64::MAX), 4_294_967_295);
    assert_eq!(compute_epoch_at_slot(&MAINNET, 127), Ok(3));
    assert_eq!(compute_start_slot_at_epoch(&MAINNET, 3), Ok(96));
    assert_eq!(compute_start_slot_at_epoch(&MAINNET, FAR), Err(Refusal::Overflow));
    assert_eq!(compute_activation_exit_epoch(&MAINNET, 3), Ok(8));
    assert_eq!(get_current_epoch(&MAINNET, 127), Ok(3));
    assert_eq!(get_previous_epoch(&MAINNET, 127), Ok(2));
    assert_eq!(get_previous_epoch(&MAINNET, 31), Ok(0));
    assert_eq!(get_current_epoch(&MAINNET, 1 << 48), Err(Refusal::Record));
    assert_eq!(get_current_epoch(&Settings { slots_per_epoch: 0, ..MAINNET }, 127), Err(Refusal::Settings));
    assert_eq!(get_current_epoch(&Settings { slots_per_historical_root: 0, ..MAINNET }, 127), Err(Refusal::SHAPE));
}

#[test]
fn opening_hours() {
    let (clock, ends) = (Clock::MAINNET, Clock { genesis_time: 0, seconds_per_slot: 1, slots_per_epoch: 1 });
    assert_eq!(clock.slot_at_time(1_606_824_023), Ok(0));
    assert_eq!(clock.slot_at_time(1_606_824_022), Err(Refusal::BeforeGenesis));
    assert_eq!(clock.epoch_at_time(1_635_332_566), Ok(74240));
    assert_eq!([1_635_332_554, 1_635_332_555].map(|t| clock.is_in_closing_window(t)), [Ok(false), Ok(true)]);
    assert_eq!(clock.first_second_of_slot(2_375_680), Ok(1_635_332_183));
    assert_eq!(clock.last_second_of_slot(2_375_680), Ok(1_635_332_194));
    assert_eq!(clock.first_second_of_epoch(74240), Ok(1_635_332_183));
    assert_eq!(clock.last_second_of_epoch(74240), Ok(1_635_332_566));
    assert_eq!(ends.last_second_of_slot(u64::MAX), Ok(u64::MAX));
    assert_eq!(Clock { genesis_time: 1, ..ends }.last_second_of_slot(u64::MAX), Err(Refusal::Overflow));
    assert_eq!(Clock { seconds_per_slot: 0, slots_per_epoch: 0, ..clock }.slot_at_time(0), Err(Refusal::NoSeconds));
    assert_eq!(Clock { slots_per_epoch: 1 << 48, ..clock }.slot_at_time(0), Err(Refusal::Settings));
}

#[test]
fn one_validator() {
    let mut v = hit();
    assert_eq!(is_active_validator(&v, 3), Ok(true));
    assert_eq!(is_active_validator(&v[1..], 3), Err(Refusal::SHAPE));
    assert_eq!(is_eligible(&MAINNET, 127, &v), Ok(true));
    assert_eq!(is_unslashed_participating(&MAINNET, 127, 1, 2, &v), Ok(true));
    assert_eq!(is_unslashed_participating(&MAINNET, 127, 1, 1, &v), Err(Refusal::SHAPE));
    assert_eq!(get_base_reward(&MAINNET, 160 * ETH, &v), Ok(5_120_000));
    assert_eq!(get_base_reward(&MAINNET, 0, &v), Err(Refusal::SHAPE));

    assert_eq!(increase_balance(&mut v, 5), Ok(()));
    assert_eq!(v[BALANCE], 32 * ETH + 5);
    let before = v;
    assert_eq!(increase_balance(&mut v, u64::MAX), Err(Refusal::Overflow));
    assert_eq!(v, before);
    assert_eq!(decrease_balance(&mut v, 33 * ETH), Ok(()));
    assert_eq!(v[BALANCE], 0);

    v[ACTIVATION_EPOCH] = FAR;
    assert_eq!(is_active_validator(&v, 3), Ok(false));
    assert_eq!(is_eligible_for_activation(0, &v), Ok(true));
    assert_eq!(is_eligible_for_activation_queue(&MAINNET, &v), Ok(false));
    v[ACTIVATION_ELIGIBILITY_EPOCH] = FAR;
    assert_eq!(is_eligible_for_activation_queue(&MAINNET, &v), Ok(true));
    v[SLASHED] = 2;
    assert_eq!(is_eligible_for_activation_queue(&MAINNET, &v), Err(Refusal::Record));

    assert_eq!(has_flag(6, 1), Ok(true));
    assert_eq!(has_flag(6, 0), Ok(false));
    assert_eq!(has_flag(6, 8), Err(Refusal::SHAPE));
    assert_eq!(add_flag(5, 1), Ok(7));

    let mut v = hit();
    (v[PREVIOUS_EPOCH_PARTICIPATION], v[INACTIVITY_SCORE]) = (5, 100);
    assert_eq!(get_inactivity_penalty_deltas(&MAINNET, 127, &v), Ok(Deltas { reward: 0, penalty: 15894 }));
    let bellatrix = Rules::bellatrix(&MAINNET, &Bellatrix::MAINNET);
    assert_eq!(get_inactivity_penalty_deltas(&bellatrix, 127, &v), Ok(Deltas { reward: 0, penalty: 47683 }));
    // the pair is tested under fork 1 alone, the Altair two under either
    let pair =
        Bellatrix { inactivity_penalty_quotient_bellatrix: 0, proportional_slashing_multiplier_bellatrix: u64::MAX };
    assert_eq!(get_inactivity_penalty_deltas(&Rules::bellatrix(&MAINNET, &pair), 127, &v), Err(Refusal::Settings));
    let unread = Rules { bellatrix: pair, ..Rules::altair(&MAINNET) };
    assert_eq!(get_inactivity_penalty_deltas(&unread, 127, &v), Ok(Deltas { reward: 0, penalty: 15894 }));
    let mut none = bellatrix;
    none.settings.inactivity_penalty_quotient_altair = 0;
    assert_eq!(get_inactivity_penalty_deltas(&none, 127, &v), Err(Refusal::Settings));
}

#[test]
fn block_roots_and_finality() {
    let mut roots = vec![0; 32 * 8192];
    roots[..32].fill(9);
    roots[32 * 64..32 * 65].fill(7);
    assert_eq!(get_block_root_at_slot(&MAINNET, &roots, 8192, 0), Ok([9; 32]));
    assert_eq!(get_block_root_at_slot(&MAINNET, &roots, 8193, 0), Err(Refusal::Root));
    assert_eq!(get_block_root(&MAINNET, &roots, 127, 2), Ok([7; 32]));
    assert_eq!(get_block_root(&MAINNET, &roots, 127, FAR), Err(Refusal::Overflow));

    // total 3 * 10^9: target 2 * 10^9 justifies, 1999999999 does not
    let before = finality(127);
    let after = weigh_justification_and_finalization(&MAINNET, &roots, &before, 3 * ETH, 2 * ETH, 1_999_999_999);
    let current_justified_checkpoint = Checkpoint { epoch: 2, root: [7; 32] };
    assert_eq!(after, Ok(Finality { justification_bits: 2, current_justified_checkpoint, ..before }));
    let short = weigh_justification_and_finalization(&MAINNET, &roots[..32], &before, 3 * ETH, 2 * ETH, 0);
    assert_eq!(short, Err(Refusal::SHAPE));

    assert_eq!(get_finality_delay(&MAINNET, 127, 1), Ok(1));
    assert_eq!(get_finality_delay(&MAINNET, 127, 3), Err(Refusal::Overflow));
    assert_eq!(is_in_inactivity_leak(&MAINNET, 127, 1), Ok(false));
    assert_eq!(is_in_inactivity_leak(&MAINNET, 32 * 6, 0), Ok(true));
}

#[test]
fn the_registry() {
    let mut registry = hit().repeat(5);
    assert_eq!(charged(&MAINNET, 127, &registry), Ok(5));
    assert_eq!(charged(&MAINNET, 31, &registry), Ok(0), "epoch 0 charges nobody");
    let mut slashed = registry.clone();
    (slashed[41], slashed[44], slashed[45]) = (1, 1, 4);
    assert_eq!(charged(&MAINNET, 127, &slashed), Ok(5), "slashed and gone, withdrawable ahead");
    slashed[45] = 3;
    assert_eq!(charged(&MAINNET, 127, &slashed), Ok(4), "withdrawable next");
    let total = |balance, raised| Ok(Total { balance, raised });
    assert_eq!(get_total_active_balance(&MAINNET, 127, &registry), total(160 * ETH, false));
    assert_eq!(get_total_active_balance(&MAINNET, 127, &[]), total(ETH, true), "a total of nobody");
    let mut one = hit();
    one[EFFECTIVE_BALANCE] = ETH;
    assert_eq!(get_total_active_balance(&MAINNET, 127, &one), total(ETH, false), "a sum of one increment");
    assert_eq!(get_participating_balance(&MAINNET, 127, 1, 2, &registry), total(160 * ETH, false));
    assert_eq!(get_validator_churn_limit(&MAINNET, 127, &registry), Ok(4));
    assert_eq!(get_base_reward_per_increment(&MAINNET, 160 * ETH), Ok(160_000));
    let target = |index, registry: &[u64]| get_flag_index_deltas(&MAINNET, 127, 1, 1, index, registry);
    assert_eq!(target(4, &registry), Ok(Deltas { reward: 2_080_000, penalty: 0 }));
    registry[LENGTH * 4 + PREVIOUS_EPOCH_PARTICIPATION] = 0;
    assert_eq!(target(0, &registry), Ok(Deltas { reward: 1_664_000, penalty: 0 }));
    assert_eq!(target(4, &registry), Ok(Deltas { reward: 0, penalty: 2_080_000 }));
    assert_eq!(target(5, &registry), Err(Refusal::SHAPE));

    let (wrong, one) = (ExitQueue { last_epoch: 8, number: 1 }, ExitQueue { last_epoch: 8, number: 1 });
    assert_eq!(initiate_validator_exit(&MAINNET, 127, 1, Some(&wrong), &mut registry), Err(Refusal::Queue));
    assert_eq!(initiate_validator_exit(&MAINNET, 127, 1, None, &mut registry), Ok(one));
    assert_eq!(exit_queue(&registry), Ok(one));
    assert_eq!(registry[LENGTH + EXIT_EPOCH..][..2], [8, 264]);
    assert_eq!(registry[EXIT_EPOCH], FAR);
    assert_eq!(initiate_validator_exit(&MAINNET, 127, 5, Some(&one), &mut registry), Err(Refusal::SHAPE));
}

#[test]
fn the_steps() {
    let mut opening = hit().repeat(5);
    let mut closing = vec![0; 50];
    let justified = |slot, registry: &[u64]| {
        process_justification_and_finalization(&MAINNET, &vec![0; 32 * 8192], &finality(slot), registry).unwrap()
    };
    let after = justified(127, &opening);
    assert_eq!((after.finality.justification_bits, after.finality.current_justified_checkpoint.epoch), (3, 3));
    assert_eq!(after.raised, Raised::default());
    assert_eq!(justified(127, &[]).raised, Raised { active: true, previous: true, current: true });
    assert_eq!(justified(63, &[]).raised, Raised::default(), "up to epoch 1");

    opening[INACTIVITY_SCORE] = 10;
    assert_eq!(process_inactivity_updates(&MAINNET, 127, 1, &opening, &mut closing), Ok(()));
    assert_eq!(closing[INACTIVITY_SCORE], 0);
    assert_eq!(process_inactivity_updates(&MAINNET, 127, 3, &opening, &mut closing), Err(Refusal::Overflow));
    assert_eq!(closing, opening);

    assert_eq!(process_rewards_and_penalties(&MAINNET, 127, 1, &opening, &mut closing), Ok(()));
    assert_eq!(closing[BALANCE], 32 * ETH + 1_120_000 + 2_080_000 + 1_120_000);

    opening[LENGTH + ACTIVATION_EPOCH] = FAR;
    let (none, wrong) = (ExitQueue::default(), ExitQueue { last_epoch: 0, number: 1 });
    assert_eq!(process_registry_updates(&MAINNET, 127, 1, None, &opening, &mut closing), Ok(none));
    assert_eq!(closing[LENGTH + ACTIVATION_EPOCH], 8);
    let before = closing.clone();
    assert_eq!(process_registry_updates(&MAINNET, 127, 1, None, &opening, &mut closing[LENGTH..]), Err(Refusal::SHAPE));
    assert_eq!(process_registry_updates(&MAINNET, 127, 1, Some(&wrong), &opening, &mut closing), Err(Refusal::Queue));
    assert_eq!(closing, before);
    assert_eq!(process_registry_updates_to(5, &MAINNET, 127, 1, Some(&none), &opening, &mut closing), Ok(none));
    assert_eq!(closing, before);
    assert_eq!(process_registry_updates_to(6, &MAINNET, 127, 1, None, &opening, &mut closing), Err(Refusal::SHAPE));
    assert_eq!(process_registry_updates_to(1, &MAINNET, 127, 1, None, &opening, &mut closing), Ok(none));
    assert_eq!(closing, opening);

    let mut opening = hit().repeat(5);
    let mut slashings = vec![0; 8192];
    let mut closing_slashings = vec![1; 8192];
    slashings[3] = 32 * ETH;
    opening[SLASHED] = 1;
    opening[WITHDRAWABLE_EPOCH] = 3 + 8192 / 2;
    assert_eq!(process_slashings(&MAINNET, 127, &slashings, &opening, &mut closing), Ok(()));
    assert_eq!((closing[BALANCE], closing[LENGTH + BALANCE]), (20 * ETH, 32 * ETH));
    let bellatrix = Rules::bellatrix(&MAINNET, &Bellatrix::MAINNET);
    assert_eq!(process_slashings(&bellatrix, 127, &slashings, &opening, &mut closing), Ok(()));
    assert_eq!(closing[BALANCE], 13 * ETH);

    opening[BALANCE] = 31_749_999_999;
    opening[LENGTH + BALANCE] = 31_750_000_000;
    assert_eq!(process_effective_balance_updates(&MAINNET, &opening, &mut closing), Ok(()));
    assert_eq!((closing[EFFECTIVE_BALANCE], closing[LENGTH + EFFECTIVE_BALANCE]), (31 * ETH, 32 * ETH));

    slashings[4] = 6;
    assert_eq!(process_slashings_reset(&MAINNET, 127, &slashings, &mut closing_slashings), Ok(()));
    slashings[4] = 0;
    assert_eq!(closing_slashings, slashings);

    opening[CURRENT_EPOCH_PARTICIPATION] = 5;
    assert_eq!(process_participation_flag_updates(&opening, &mut closing), Ok(()));
    assert_eq!(closing[PREVIOUS_EPOCH_PARTICIPATION..][..2], [5, 0]);
}

/// Deneb's limit of activations, document 03's figures: forty are active, of whom twenty leave, and twenty wait
#[test]
fn deneb() {
    let (mut leaving, mut waiting) = (hit(), hit());
    leaving[EFFECTIVE_BALANCE] = 16 * ETH;
    (waiting[ACTIVATION_ELIGIBILITY_EPOCH], waiting[ACTIVATION_EPOCH]) = (1, FAR);
    let opening = [leaving.repeat(20), hit().repeat(20), waiting.repeat(20)].concat();
    let having = |numbers: &[u64], place: usize| numbers.chunks(LENGTH).filter(|one| one[place] == 8).count();
    let small = Settings { churn_limit_quotient: 4, ..MAINNET };
    let smaller = DenebRules { settings: small, ..DenebRules::MAINNET };
    let nobody = DenebRules { max_per_epoch_activation_churn_limit: 0, ..smaller };
    let finality = Finality { finalized_checkpoint: Checkpoint { epoch: 1, root: [0; 32] }, ..finality(127) };
    let record = Record {
        settings: MAINNET,
        finality,
        registry: opening.clone(),
        slashings: vec![0; 8192],
        roots: vec![0; 32 * 8192],
        queue: None,
    };
    for (rules, leave, enter) in [(smaller, 10, 8), (DenebRules::MAINNET, 4, 4), (nobody, 10, 0)] {
        let mut closing = vec![0; opening.len()];
        let queue = deneb_process_registry_updates(&rules, 127, 1, None, &opening, &mut closing).unwrap();
        assert_eq!((having(&closing, EXIT_EPOCH), having(&closing, ACTIVATION_EPOCH)), (leave, enter));
        assert_eq!(exit_queue(&closing), Ok(queue));
        let closed = record.close_by_deneb(&rules).unwrap();
        assert_eq!((having(&closed.registry, EXIT_EPOCH), having(&closed.registry, ACTIVATION_EPOCH)), (leave, enter));
        assert_eq!(closed.queue, Some(queue));
    }
    let wrong = DenebRules { max_per_epoch_activation_churn_limit: 1 << 48, ..smaller };
    assert_eq!(record.close_by_deneb(&wrong), Err(Refusal::Settings));
}

/// Electra's close: a top-up, a new key, a deposit of one that leaves now, one that is too much, and a consolidation
#[test]
fn electra() {
    let (mut leaving, mut gone) = (hit(), hit());
    leaving[EFFECTIVE_BALANCE] = 16 * ETH;
    (gone[EXIT_EPOCH], gone[WITHDRAWABLE_EPOCH], gone[BALANCE]) = (2, 4, 31 * ETH);
    let record = ElectraRecord {
        rules: ElectraRules { settings: MAINNET, bellatrix: Bellatrix::MAINNET, electra: Electra::MAINNET },
        finality: Finality { finalized_checkpoint: Checkpoint { epoch: 1, root: [0; 32] }, ..finality(127) },
        churn: ExitChurn::default(),
        numbers: DepositNumbers {
            deposit_balance_to_consume: 0,
            eth1_deposit_index: 6,
            deposit_requests_start_index: 6,
        },
        registry: [hit(), gone, leaving, hit(), hit()].concat(),
        compounding: vec![1, 0, 0, 0, 0],
        slashings: vec![0; 8192],
        roots: vec![0; 32 * 8192],
        deposits: [[3, 0, ETH, 0, 1], [7, 1, 33 * ETH, 32, 1], [2, 0, 2 * ETH, 0, 1], [5, 0, 100 * ETH, 0, 1]].concat(),
        consolidations: vec![1, 0, 2, 0],
    };
    let closed = record.close().unwrap();
    assert_eq!(closed.churn, ExitChurn { exit_balance_to_consume: 112 * ETH, earliest_exit_epoch: 8 });
    assert_eq!(closed.numbers.deposit_balance_to_consume, 94 * ETH);
    assert_eq!(
        (closed.compounding.as_slice(), closed.consolidations.as_slice()),
        (&[1, 0, 0, 0, 0, 1][..], &[2, 0][..])
    );
    // 7 is now validator 5, and 5, which none has, number 6
    assert_eq!(closed.deposits, [[6, 0, 100 * ETH, 0, 1], [2, 0, 2 * ETH, 0, 1]].concat());
    assert_eq!((closed.registry[EFFECTIVE_BALANCE], closed.registry[2 * LENGTH + EXIT_EPOCH]), (63 * ETH, 8));
    let opening = record.validators().map(|one| one[BALANCE]).chain([0]);
    for ((before, after), booked) in opening.zip(closed.validators()).zip(&closed.amounts) {
        assert_eq!(i128::from(before) + booked.net(), i128::from(after[BALANCE]));
    }
    assert_eq!((closed.amounts[1].consolidated_out, closed.amounts[0].consolidated_in), (31 * ETH, 31 * ETH));
    let wrong = ElectraRecord { compounding: vec![2, 0, 0, 0, 0], ..record.clone() };
    assert_eq!(wrong.close(), Err(Refusal::Record));
    let Err(Refusal::Shape(fault)) = (ElectraRecord { consolidations: vec![1, 5], ..record }).close() else { panic!() };
    assert_eq!((fault.argument, fault.number), ("consolidations", 5));
}

/// document 01's worked record
fn worked() -> Record {
    let checkpoint = |epoch| Checkpoint { epoch, root: [0; 32] };
    let mut registry = hit().repeat(5);
    registry[LENGTH * 4 + PREVIOUS_EPOCH_PARTICIPATION..][..2].fill(0);
    Record {
        settings: Settings {
            slots_per_epoch: 8,
            slots_per_historical_root: 64,
            epochs_per_slashings_vector: 64,
            ..MAINNET
        },
        finality: Finality {
            slot: 31,
            justification_bits: 3,
            previous_justified_checkpoint: checkpoint(1),
            current_justified_checkpoint: checkpoint(2),
            finalized_checkpoint: checkpoint(1),
        },
        registry,
        slashings: vec![0; 64],
        roots: vec![0; 32 * 64],
        queue: Some(ExitQueue::default()),
    }
}

#[test]
fn the_file() {
    let record = worked();
    let mut file = record.write().unwrap();
    let header = Header { version: 2, validators: 5, roots: 64, slashings: 64 };
    assert_eq!((read_header(&file), file.len()), (Ok(header), header.file_length()));
    assert_eq!(Record::read(&file).as_ref(), Ok(&record));
    assert_eq!(Record { queue: None, ..record.clone() }.write().as_ref(), Ok(&file));
    let wrong = Some(ExitQueue { last_epoch: 7, number: 0 });
    assert_eq!(Record { queue: wrong, ..record.clone() }.write(), Err(Refusal::Queue));
    assert_eq!(Record { queue: wrong, ..record.clone() }.close(), Err(Refusal::Queue));

    // the same in version 1: without the pair, and the offsets behind it 16 less
    let mut old = [&file[..368], &file[384..]].concat();
    old[0] = 1;
    for at in [8, 56, 64, 72] {
        let number = u64::from_le_bytes(old[at..at + 8].try_into().unwrap()) - 16;
        old[at..at + 8].copy_from_slice(&number.to_le_bytes());
    }
    assert_eq!(read_header(&old), Ok(Header { version: 1, ..header }));
    assert_eq!(Record::read(&old).as_ref(), Ok(&record));
    // a pair that is another registry's, tested after the validators
    file[368] = 7;
    assert_eq!(Record::read(&file), Err(ReadRefused { refusal: Refusal::Queue, position: 368 }));
    file[368] = 0;

    // the second validator's flags are bad: reading stops there
    let at = 384 + 80 + 8 * CURRENT_EPOCH_PARTICIPATION;
    file[at + 1] = 1;
    assert_eq!(Record::read(&file), Err(ReadRefused { refusal: Refusal::Record, position: at as u64 }));
    assert_eq!(Record::read(&file[1..]), Err(ReadRefused { refusal: Refusal::File, position: 80 }));
    assert_eq!(Record::read(&[]), Err(ReadRefused { refusal: Refusal::File, position: 0 }));
    assert_eq!(Record { registry: vec![0; 9], ..record }.write(), Err(Refusal::SHAPE));
}

#[test]
fn the_close() {
    let record = worked();
    let closed = record.close().unwrap();
    assert_eq!((record.charged(), closed.finality.finalized_checkpoint.epoch), (Ok(5), 2));
    let balances: Vec<u64> = closed.validators().map(|v| v[BALANCE]).collect();
    let hit = Amounts { source_reward: 896_000, target_reward: 1_664_000, head_reward: 896_000, ..Amounts::default() };
    let missed = Amounts { source_taken: 1_120_000, target_taken: 2_080_000, ..Amounts::default() };
    assert_eq!((&closed.amounts[..], closed.test), (&[hit, hit, hit, hit, missed][..], 4));
    assert_eq!((closed.queue, hit.net(), missed.net()), (Some(ExitQueue::default()), 3_456_000, -3_200_000));
    assert_eq!(balances, [32_003_456_000, 32_003_456_000, 32_003_456_000, 32_003_456_000, 31_996_800_000]);

    let head = listing_head(&record.settings, 31, &closed.finality, &record.registry);
    let (justified_epoch, finalized_epoch, justification_bits) = (3, 2, 7);
    let raised = Raised::default();
    assert_eq!(head, Ok(Head { epoch: 3, justified_epoch, finalized_epoch, justification_bits, charged: 5, raised }));
    let mut last = closed.registry.clone();
    (last[40 + EFFECTIVE_BALANCE], last[40 + INACTIVITY_SCORE]) = (8, 9);
    let (opening_balance, closing_balance) = (32 * ETH, 31_996_800_000);
    let (effective_balance, inactivity_score, net_change) = (8, 9, -3_200_000);
    let line = Line { index: 4, opening_balance, closing_balance, effective_balance, inactivity_score, net_change };
    assert_eq!(listing_line(&record.registry, &last, 4), Ok(line));
    assert_eq!(listing_line(&record.registry, &last, 5), Err(Refusal::SHAPE));
    last[40 + BALANCE] = u64::MAX;
    assert_eq!(listing_line(&record.registry, &last, 4), Err(Refusal::SignedOverflow));

    // refused with 3 nothing is written, with 5 the opening is put back
    let mut far = record.clone();
    far.finality.finalized_checkpoint.epoch = 1 << 48;
    assert_eq!(far.close(), Err(Refusal::Record));
    let mut far = record;
    far.registry[BALANCE] = u64::MAX;
    let (mut registry, mut slashings, mut amounts) = (vec![1; 50], vec![1; 64], vec![hit; 5]);
    let answer = close(
        &far.settings,
        &far.finality,
        far.queue.as_ref(),
        &far.registry,
        &far.slashings,
        &far.roots,
        &mut registry,
        &mut slashings,
        &mut amounts,
    );
    assert_eq!(answer, Err(Refusal::Overflow));
    assert_eq!((registry, slashings, amounts), (far.registry, far.slashings, vec![Amounts::default(); 5]));
}

// epoch 3 goes by the second of three entries: what eight steps and no order leave is what the whole close leaves
#[test]
fn by_steps() {
    let record = worked();
    let other = Rules::altair(&Settings { base_reward_factor: 1, ..record.settings });
    let mut store = Store::new();
    for (start, rules) in [(2, other), (3, Rules::altair(&record.settings)), (4, other)] {
        store.add(start, &rules).unwrap();
    }
    let mut desk = Desk::new(&record, &store, 1);
    for done in 1..=8 {
        assert_eq!((desk.step(), desk.done()), (Ok(()), done));
    }
    assert_eq!(desk.step(), Err(NotDone::Refused(Refusal::SHAPE)));
    assert_eq!(desk.carry_out(1 << 48), Err(NotDone::Refused(Refusal::Settings)));
    assert_eq!(desk.carry_out(256), Ok(vec![]));
    assert_eq!((desk.closed(), record.close_by(&store)), (record.close().ok(), record.close()));

    // without an entry for the epoch the first call ends the close
    let mut late = Store::new();
    late.add(4, &other).unwrap();
    for none in [Store::new(), late] {
        let mut desk = Desk::new(&record, &none, 1);
        assert_eq!((desk.step(), desk.done()), (Err(NotDone::Refused(Refusal::NoEntry)), 9));
        assert_eq!((desk.step(), desk.closed()), (Err(NotDone::Ended), None));
    }
}

#[test]
fn votes_not_yet_counted() {
    let settings =
        Settings { slots_per_epoch: 8, slots_per_historical_root: 64, epochs_per_slashings_vector: 64, ..MAINNET };
    let at = |epoch| Checkpoint { epoch, ..Checkpoint::default() };
    let standing = Finality {
        justification_bits: 2,
        previous_justified_checkpoint: at(1),
        current_justified_checkpoint: at(2),
        ..finality(31)
    };
    let (roots, registry) = (vec![0; 32 * 64], hit().repeat(5));
    let votes = |finality: &Finality, marks: &[u64]| {
        unknown_votes(&settings, &roots, finality, &registry, marks)
            .map(|v| (v.finalized_epochs().to_vec(), v.previous_target, v.current_target))
    };
    let told = |epochs: &[u64], previous_target, current_target| Ok((epochs.to_vec(), previous_target, current_target));
    assert_eq!(votes(&standing, &[mark::BOTH_KNOWN; 5]), told(&[2], Passes::InAll, Passes::InAll));
    assert_eq!(votes(&standing, &[mark::BOTH_UNKNOWN; 5]), told(&[0, 1, 2], Passes::InSome, Passes::InSome));
    assert_eq!(votes(&standing, &[mark::PREVIOUS_UNKNOWN; 5]), told(&[0, 2], Passes::InSome, Passes::InAll));
    assert_eq!(votes(&standing, &[mark::CURRENT_UNKNOWN; 5]), told(&[1, 2], Passes::InAll, Passes::InSome));
    let early = Finality { finalized_checkpoint: at(5), ..finality(8) };
    assert_eq!(votes(&early, &[3; 5]), told(&[5], Passes::InNone, Passes::InNone));
    assert_eq!(votes(&finality(24), &[3; 5]), Err(Refusal::Root));
    assert_eq!(votes(&standing, &[4, 0, 0, 0, 0]), Err(Refusal::Record));
    assert_eq!(votes(&standing, &[0; 4]), Err(Refusal::SHAPE));
}

#[test]
fn refusals_have_their_numbers() {
    let numbers = Refusal::ALL.map(Refusal::number);
    assert!(numbers.windows(2).all(|pair| pair[0] < pair[1]), "{numbers:?}");
    assert_eq!(numbers[..6], [1, 2, 3, 4, 5, 6]);
    assert_eq!((Refusal::BeforeGenesis.number(), Refusal::NoSeconds.number()), (14, 15));
    for refusal in Refusal::ALL {
        assert_eq!(Refusal::from_number(refusal.number()), Some(refusal));
        assert!(refusal.to_string().starts_with(&format!("refused {}: ", refusal.number())));
    }
}

// refused with 1: the argument and the length called for, and of another refusal nothing
#[test]
fn what_was_wrong() {
    let r = worked();
    let why = |refused: Refusal| match refused {
        Refusal::Shape(fault) => {
            assert!(refused
                .to_string()
                .ends_with(&format!(": {}: {} ({})", fault.argument, fault.wanted, fault.number)));
            (fault.argument, fault.number)
        }
        _ => panic!("{refused}"),
    };
    let closed = |r: Record| why(r.close().unwrap_err());
    assert_eq!(closed(Record { roots: vec![0; 31], ..r.clone() }), ("roots", 2048));
    assert_eq!(closed(Record { slashings: vec![0; 63], ..r.clone() }), ("slashings", 64));
    assert_eq!(closed(Record { registry: vec![0; 51], ..r.clone() }), ("registry", 50));
    assert_eq!(why(r.close_under(2, &Bellatrix::default()).unwrap_err()), ("store", 1));
    let short = Settings { slots_per_historical_root: 0, ..MAINNET };
    assert_eq!(why(get_current_epoch(&short, 127).unwrap_err()), ("settings", 65536));
    assert_eq!(why(get_flag_index_deltas(&MAINNET, 127, 1, 1, 5, &r.registry).unwrap_err()), ("index", 5));
    assert_eq!(
        why(process_effective_balance_updates(&MAINNET, &r.registry, &mut [0; 49]).unwrap_err()),
        ("closing", 50)
    );
    assert_eq!(
        why(write_file(&r.settings, &r.finality, None, &r.registry, &r.roots, &r.slashings, &mut []).unwrap_err()).0,
        "file"
    );
    assert_eq!(why(read_file(&r.write().unwrap(), &mut [0; 49], &mut [0; 64]).unwrap_err().refusal), ("registry", 50));
    assert_eq!(why(add_rules(&mut [], 0, 1, &MAINNET).unwrap_err()), ("store", 23));
    let mut desk = Desk::new(&r, &r.settings, 1);
    let Err(NotDone::Refused(refused)) = desk.order(1, 0) else { panic!() };
    assert_eq!(why(refused), ("running", 1));
    assert_eq!(get_current_epoch(&MAINNET, 1 << 48).unwrap_err().to_string().matches(':').count(), 1);
}

// the orders stay in their list after a close that was refused, and can be read
#[test]
fn orders_of_a_refused_close() {
    let mut record = worked();
    (record.registry[BALANCE], record.registry[PREVIOUS_EPOCH_PARTICIPATION]) = (FAR, 7);
    let mut desk = Desk::new(&record, &record.settings, 3);
    desk.step().unwrap();
    desk.order(1, 0).unwrap();
    desk.order(9, 4).unwrap();
    desk.step().unwrap();
    assert_eq!((desk.step(), desk.done()), (Err(NotDone::Refused(Refusal::Overflow)), 9));
    assert_eq!(desk.orders().collect::<Vec<_>>(), [(1, 0), (9, 4)]);
    assert_eq!((desk.order(2, 0), desk.closed()), (Err(NotDone::Ended), None));
    assert_eq!(desk.orders().count(), 2);
}

// who is charged: also one that is slashed and withdrawable only later, and nobody at epoch 0
#[test]
fn charged_of_a_record() {
    let mut record = worked();
    (record.registry[SLASHED], record.registry[EXIT_EPOCH], record.registry[WITHDRAWABLE_EPOCH]) = (1, 1, 4);
    assert_eq!(record.charged(), Ok(5));
    record.registry[WITHDRAWABLE_EPOCH] = 3;
    assert_eq!(record.charged(), Ok(4));
    assert_eq!(Record { finality: finality(7), ..record }.charged(), Ok(0));
}

// both ends of the range, and one beyond either
#[test]
fn net_changes() {
    assert_eq!(net_change(7, 7), Ok(0));
    assert_eq!(net_change(0, (1 << 63) - 1), Ok(i64::MAX));
    assert_eq!(net_change(0, 1 << 63), Err(Refusal::SignedOverflow));
    assert_eq!(net_change(1 << 63, 0), Ok(i64::MIN));
    assert_eq!(net_change(u64::MAX, (1 << 63) - 1), Ok(i64::MIN));
    assert_eq!(net_change((1 << 63) + 1, 0), Err(Refusal::SignedOverflow));
}
